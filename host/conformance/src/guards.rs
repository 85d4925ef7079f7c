//! What is lent to a call, as a copy between guards: numbers that are not lent
//! and must stay.

/// How many guards stand on either side.
const GUARDS: usize = 4;

/// A guard, in each of its places.
const GUARD: u8 = 0xA5;

/// What a call answers on a copy of these numbers, and the copy then.
pub fn lent<T, A>(numbers: &[T], call: impl FnOnce(&mut [T]) -> A) -> (A, Vec<T>)
where
    T: Copy + PartialEq + From<u8>,
{
    let guards = [T::from(GUARD); GUARDS];
    let mut copy = [&guards, numbers, &guards].concat();
    let inside = GUARDS..GUARDS + numbers.len();
    let answer = call(&mut copy[inside.clone()]);
    let stay = copy.starts_with(&guards) && copy.ends_with(&guards);
    assert!(stay, "a call wrote beside what was lent");
    (answer, copy[inside].to_vec())
}

/// What a call answers on a copy that it may only read.
pub fn only_read<T, A>(numbers: &[T], call: impl FnOnce(&[T]) -> A) -> A
where
    T: Copy + PartialEq + From<u8>,
{
    let (answer, after) = lent(numbers, |copy| call(copy));
    assert!(after == numbers, "a call wrote to what it may only read");
    answer
}

/// The same, of as many numbers as the call takes.
pub fn only_read_array<T, A, const N: usize>(numbers: [T; N], call: impl FnOnce(&[T; N]) -> A) -> A
where
    T: Copy + PartialEq + From<u8>,
{
    only_read(&numbers, |copy| call(copy.try_into().expect("as many")))
}
