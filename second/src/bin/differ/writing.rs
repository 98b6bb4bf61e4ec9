//! Calls written as lines through the C library. Each is written by both into lent buffers
//! with the same bytes; the buffer and the vector that is handed over stand between guards.
//! The count that comes back and every byte and column have to be the same afterwards, and
//! what was written has to be read back as the call, or its preview, with its vector.

use crate::guarded::{byte_pattern, number_pattern, Guarded};
use crate::tally::{kind_of_written, Tally};
use crate::{shown, Difference};
use second::lines::{self, Asked};
use second::plant::Call;
use second::random::Random;
use second::trials::writing as trials;
use second::{host, writing};

/// A call to be written, the number that asks for its preview, and the lent buffer's bytes.
struct Setting {
    call: Call,
    preview: u64,
    filling: Vec<u8>,
    salt: u64,
}

impl Setting {
    /// A setting with any call and any buffer.
    fn new(random: &mut Random) -> Setting {
        Setting {
            call: trials::call(random),
            preview: trials::preview(random),
            filling: trials::buffer(random),
            salt: random.any(),
        }
    }

    /// The lent buffer between its guards.
    fn buffer(&self) -> Guarded<u8> {
        Guarded::new(&self.filling, byte_pattern(self.salt))
    }

    /// The columns that the call hands over, between their guards; none where it takes none.
    fn vector(&self) -> Guarded<u64> {
        let columns: &[u64] = match &self.call {
            Call::Receive(v) | Call::Accept(v, _) => v,
            Call::Settle(_, d) => d,
            Call::Feed(_) | Call::Return(_) | Call::Release(_) => &[],
            Call::Recycle(_) | Call::Draw(_) => &[],
        };
        Guarded::new(columns, number_pattern(self.salt))
    }

    /// Has the library write into this buffer, with these columns; gives its count.
    fn by_library(&self, vector: &mut Guarded<u64>, buffer: &mut [u8]) -> usize {
        match self.call {
            Call::Receive(_) => host::write_receive(vector.array(), self.preview, buffer),
            Call::Feed(k) => host::write_feed(k, self.preview, buffer),
            Call::Settle(gas, _) => host::write_settle(gas, vector.array(), self.preview, buffer),
            Call::Return(k) => host::write_return(k, self.preview, buffer),
            Call::Release(k) => host::write_release(k, self.preview, buffer),
            Call::Recycle(k) => host::write_recycle(k, self.preview, buffer),
            Call::Draw(k) => host::write_draw(k, self.preview, buffer),
            Call::Accept(_, n) => host::write_accept(vector.array(), n, self.preview, buffer),
        }
    }

    /// Says in what setting a difference was found.
    fn explain(&self, difference: Difference) -> Difference {
        let Setting { call, preview, filling, .. } = self;
        let length = filling.len();
        format!("write {call:?}, preview {preview}\n  buffer of {length} bytes\n  {difference}")
    }
}

/// Asks that this was written and is read back; gives it without its newline.
fn read_back(asked: &Asked, written: &[u8]) -> Result<Vec<u8>, Difference> {
    let line = written.strip_suffix(b"\n").filter(|line| !line.contains(&b'\n'));
    match line.filter(|line| lines::read(line).as_ref() == Some(asked)) {
        Some(line) => Ok(line.to_vec()),
        None => Err(format!("second writes what it does not read so: {}", shown(written))),
    }
}

/// Compares the counts that come back.
fn compare_counts(count: usize, told: usize) -> Result<(), Difference> {
    match count == told {
        true => Ok(()),
        false => Err(format!("count: second {count}, library {told}")),
    }
}

/// Compares what both write in this setting; gives the line, none where both refuse.
fn by_both(
    setting: &Setting,
    asked: &Asked,
    tally: &mut Tally,
) -> Result<Option<Vec<u8>>, Difference> {
    let (mut vector, mut lent) = (setting.vector(), setting.buffer());
    let told = setting.by_library(&mut vector, lent.inner());
    let mut buffer = setting.buffer();
    let result = writing::write(asked, buffer.inner());
    tally.add(kind_of_written(asked), result.err().map_or(0, |refusal| refusal as usize));
    let count = result.unwrap_or(0);
    let compared = compare_counts(count, told)
        .and_then(|()| buffer.compare("buffer", &lent))
        .and_then(|()| setting.vector().compare("vector", &vector));
    let written = &buffer.inner()[..count];
    compared.map_err(|difference| format!("{difference}\n  second writes {}", shown(written)))?;
    result.ok().map(|_| read_back(asked, written)).transpose()
}

/// Has one call written by both and compares everything; gives its line where it was written.
pub fn one_call(random: &mut Random, tally: &mut Tally) -> Result<Option<Vec<u8>>, Difference> {
    let setting = Setting::new(random);
    let asked = writing::asked(setting.call.clone(), setting.preview);
    by_both(&setting, &asked, tally).map_err(|difference| setting.explain(difference))
}
