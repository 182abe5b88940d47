// Stand-in for the vector trait: the two functions that the cut and the joining call.
use super::FloatT;

pub(crate) trait VectorMath<T> {
    fn copy_from(&mut self, src: &[T]) -> &mut Self;
    fn negate(&mut self) -> &mut Self;
}

impl<T: FloatT> VectorMath<T> for [T] {
    fn copy_from(&mut self, src: &[T]) -> &mut Self {
        self.copy_from_slice(src);
        self
    }
    fn negate(&mut self) -> &mut Self {
        self.iter_mut().for_each(|x| *x = -*x);
        self
    }
}
