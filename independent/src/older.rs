//! What the standard library has only since later than Rust 1.63, the compiler of Debian 12:
//! divisions rounded upwards, slices cut into arrays and, for the timing, a value that the
//! compiler knows nothing of.

pub trait Upwards {
    /// ceil(self / by).
    fn div_up(self, by: usize) -> usize;
    /// The least multiple of `of` that is not below self.
    fn up_to_multiple(self, of: usize) -> usize;
}

impl Upwards for usize {
    #[inline]
    fn div_up(self, by: usize) -> usize {
        self / by + usize::from(self % by > 0)
    }

    #[inline]
    fn up_to_multiple(self, of: usize) -> usize {
        self.div_up(of) * of
    }
}

pub trait Arrays<T> {
    /// The whole arrays of a slice, from its front, and what is left at its end.
    fn arrays<const N: usize>(&self) -> (&[[T; N]], &[T]);
    fn arrays_mut<const N: usize>(&mut self) -> (&mut [[T; N]], &mut [T]);
}

// Sound: an array is its N elements side by side, and the front has as many elements as so many arrays.
impl<T> Arrays<T> for [T] {
    #[inline]
    fn arrays<const N: usize>(&self) -> (&[[T; N]], &[T]) {
        let count = self.len() / N;
        let (front, rest) = self.split_at(count * N);
        (unsafe { std::slice::from_raw_parts(front.as_ptr().cast(), count) }, rest)
    }

    #[inline]
    fn arrays_mut<const N: usize>(&mut self) -> (&mut [[T; N]], &mut [T]) {
        let count = self.len() / N;
        let (front, rest) = self.split_at_mut(count * N);
        (unsafe { std::slice::from_raw_parts_mut(front.as_mut_ptr().cast(), count) }, rest)
    }
}

/// The value, as one that the compiler knows nothing of.
#[cfg(feature = "linked")]
#[inline(always)]
pub fn black_box<T>(mut value: T) -> T {
    // Sound: no instruction at all, but for all that the compiler knows it may write to the value.
    unsafe { std::arch::asm!("/* {0} */", in(reg) &mut value, options(nostack, preserves_flags)) }
    value
}
