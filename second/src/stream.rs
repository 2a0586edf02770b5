//! Numbers and bytes taken off a stream, one after the other; an error where it is cut short.

/// What is left of a stream.
pub struct Stream<'a> {
    rest: &'a [u8],
    /// What the stream holds, for the error.
    name: &'static str,
}

impl<'a> Stream<'a> {
    /// A stream of these bytes.
    pub fn of(rest: &'a [u8], name: &'static str) -> Stream<'a> {
        Stream { rest, name }
    }

    /// Whether nothing is left.
    pub fn is_empty(&self) -> bool {
        self.rest.is_empty()
    }

    /// Takes so many bytes.
    pub fn take(&mut self, length: usize) -> Result<&'a [u8], String> {
        if self.rest.len() < length {
            return Err(format!("the {} is cut short", self.name));
        }
        let (taken, rest) = self.rest.split_at(length);
        self.rest = rest;
        Ok(taken)
    }

    /// Takes a number of 4 bytes.
    pub fn take_4(&mut self) -> Result<u32, String> {
        let bytes = self.take(4)?;
        Ok(u32::from_le_bytes(bytes.try_into().expect("4 bytes were taken")))
    }

    /// Takes a number of 8 bytes.
    pub fn take_8(&mut self) -> Result<u64, String> {
        let bytes = self.take(8)?;
        Ok(u64::from_le_bytes(bytes.try_into().expect("8 bytes were taken")))
    }

    /// Takes a length and so many bytes.
    pub fn take_lent(&mut self) -> Result<Vec<u8>, String> {
        let length = self.take_4()? as usize;
        Ok(self.take(length)?.to_vec())
    }

    /// The next thing that `take_one` takes, if anything is left; behind an error nothing is.
    pub fn next<T>(
        &mut self,
        take_one: impl Fn(&mut Self) -> Result<T, String>,
    ) -> Option<Result<T, String>> {
        if self.is_empty() {
            return None;
        }
        let taken = take_one(self);
        if taken.is_err() {
            self.rest = &[];
        }
        Some(taken)
    }
}
