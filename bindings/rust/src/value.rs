//! What is sent, received and drawn, and how it is encoded.
use crate::protocol::put_number;
use alloc::vec::Vec;

/// What a proof carries for a step. Scalars are canonical numbers, and an element of the extension is the list of its
/// coefficients.
#[derive(Clone, Debug, PartialEq, Eq)]
pub enum Value {
    /// Of `Salt`, `Bytes`, `Hint`, `BytesBounded` and `HintBounded`.
    Bytes(Vec<u8>),
    /// Of `Scalar`.
    Scalar(u64),
    /// Of `Scalars` and `ScalarsBounded`.
    Scalars(Vec<u64>),
    /// Of `Extension`.
    Extension(Vec<u64>),
    /// Of `Pow`. It is found, and so never handed to a prover.
    Witness(u64),
}

/// What is drawn at a step, as a list also where it is one value.
#[derive(Clone, Debug, PartialEq, Eq)]
pub enum Challenge {
    /// At `ChallengeScalar` and `ChallengeScalars`.
    Scalars(Vec<u64>),
    /// At `ChallengeExtension` and `ChallengeExtensions`.
    Extensions(Vec<Vec<u64>>),
    /// At `ChallengeBits` and `ChallengeUniformBits`.
    Bits(Vec<u64>),
}

/// Encodes values, after their number.
pub(crate) fn encoded(values: &[Value]) -> Vec<u8> {
    let mut to = Vec::new();
    put_number(&mut to, values.len() as u64);
    for value in values {
        put_value(&mut to, value);
    }
    to
}

/// Encodes a value.
pub(crate) fn put_value(to: &mut Vec<u8>, value: &Value) {
    match value {
        Value::Bytes(bytes) => {
            to.push(0);
            put_number(to, bytes.len() as u64);
            to.extend_from_slice(bytes);
        }
        Value::Scalar(number) => {
            to.push(1);
            put_number(to, *number);
        }
        Value::Scalars(numbers) => {
            to.push(2);
            put_number(to, numbers.len() as u64);
            numbers.iter().for_each(|it| put_number(to, *it));
        }
        Value::Extension(coefficients) => {
            to.push(3);
            coefficients.iter().for_each(|it| put_number(to, *it));
        }
        Value::Witness(number) => {
            to.push(4);
            put_number(to, *number);
        }
    }
}

/// An answer that is read from its front. Each method is `None` where the bytes are no answer of the library's.
pub(crate) struct Reader<'a> {
    pub(crate) left: &'a [u8],
    pub(crate) degree: usize,
}

impl<'a> Reader<'a> {
    fn bytes(&mut self, count: usize) -> Option<&'a [u8]> {
        let (head, left) = self.left.split_at_checked(count)?;
        self.left = left;
        Some(head)
    }

    pub(crate) fn number(&mut self) -> Option<u64> {
        Some(u64::from_le_bytes(self.bytes(8)?.try_into().ok()?))
    }

    fn so_many<T>(
        &mut self,
        count: u64,
        mut read: impl FnMut(&mut Self) -> Option<T>,
    ) -> Option<Vec<T>> {
        // Each takes a byte at least.
        let mut all = Vec::with_capacity(usize::try_from(count).ok()?.min(self.left.len()));
        for _ in 0..count {
            all.push(read(self)?);
        }
        Some(all)
    }

    /// A list, after its number.
    pub(crate) fn list<T>(&mut self, read: impl FnMut(&mut Self) -> Option<T>) -> Option<Vec<T>> {
        let count = self.number()?;
        self.so_many(count, read)
    }

    /// None or one, after how many there are.
    pub(crate) fn none_or_one<T>(
        &mut self,
        mut read: impl FnMut(&mut Self) -> Option<T>,
    ) -> Option<Option<T>> {
        match self.number()? {
            0 => Some(None),
            1 => Some(Some(read(self)?)),
            _ => None,
        }
    }

    pub(crate) fn counted(&mut self) -> Option<Vec<u8>> {
        let count = self.number()?;
        Some(self.bytes(usize::try_from(count).ok()?)?.to_vec())
    }

    fn element(&mut self) -> Option<Vec<u64>> {
        self.so_many(self.degree as u64, Reader::number)
    }

    pub(crate) fn value(&mut self) -> Option<Value> {
        match self.bytes(1)? {
            [0] => Some(Value::Bytes(self.counted()?)),
            [1] => Some(Value::Scalar(self.number()?)),
            [2] => Some(Value::Scalars(self.list(Reader::number)?)),
            [3] => Some(Value::Extension(self.element()?)),
            [4] => Some(Value::Witness(self.number()?)),
            _ => None,
        }
    }

    pub(crate) fn challenge(&mut self) -> Option<Challenge> {
        match self.bytes(1)? {
            [2] => Some(Challenge::Scalars(self.list(Reader::number)?)),
            [5] => Some(Challenge::Extensions(self.list(Reader::element)?)),
            [6] => Some(Challenge::Bits(self.list(Reader::number)?)),
            _ => None,
        }
    }
}
