//! The writer for call lines: a call or its preview as its line and a newline, in a buffer
//! that the caller lends. A call's own number is always written; of its vector the columns
//! that are not zero, in their order.

use crate::lines::{Asked, Writer};
use crate::plant::{Call, Refusal};
use crate::tables::{ASM1_NAMES, DIGESTER_NAMES};

/// The fewest bytes a buffer lent for a line may have.
pub const SHORTEST_BUFFER: usize = 1025;

/// What a host in C asks for by a call and a number: the call where that is 0, else its preview.
pub fn asked(call: Call, preview: u64) -> Asked {
    match preview {
        0 => Asked::Call(call),
        _ => Asked::Preview(call),
    }
}

/// Writes the line that is read as this, and its newline; gives the count of the bytes written.
/// Those behind keep their values, and under refusal 12 all do.
pub fn write(asked: &Asked, buffer: &mut [u8]) -> Result<usize, Refusal> {
    if buffer.len() < SHORTEST_BUFFER {
        return Err(Refusal::BufferShort);
    }
    let mut out = Writer::new(buffer);
    match asked {
        Asked::Call(call) => write_form(&mut out, call),
        Asked::Preview(call) => {
            out.text(b"(preview ");
            write_form(&mut out, call);
            out.text(b")");
        }
    }
    out.text(b"\n");
    Ok(out.filled().len())
}

/// Writes the form of a call.
fn write_form(out: &mut Writer, call: &Call) {
    match call {
        Call::Receive(v) => {
            out.text(b"(receive");
            write_fields(out, &ASM1_NAMES, v);
        }
        Call::Feed(k) => out.labelled(b"(feed ", *k),
        Call::Settle(gas, v) => {
            out.labelled(b"(settle ", *gas);
            write_fields(out, &DIGESTER_NAMES, v);
        }
        Call::Return(k) => out.labelled(b"(return ", *k),
        Call::Release(k) => out.labelled(b"(release ", *k),
        Call::Recycle(k) => out.labelled(b"(recycle ", *k),
        Call::Draw(k) => out.labelled(b"(draw ", *k),
        Call::Accept(v, nitrite) => {
            out.labelled(b"(accept ", *nitrite);
            write_fields(out, &ASM1_NAMES, v);
        }
    }
    out.text(b")");
}

/// Writes a field for each column that is not zero.
fn write_fields(out: &mut Writer, names: &[&str], v: &[u64]) {
    for (name, &number) in names.iter().zip(v).filter(|(_, &number)| number > 0) {
        out.text(b" (");
        out.text(name.as_bytes());
        out.labelled(b" ", number);
        out.text(b")");
    }
}
