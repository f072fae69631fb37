//! Stand-in for rand: nothing is drawn, the originals only have to compile.

pub trait Rng {
    fn gen<T>(&mut self) -> T {
        unreachable!("nothing is drawn at random")
    }
}

pub mod distributions {
    pub struct Standard;

    pub trait Distribution<T> {
        fn sample<R: crate::Rng + ?Sized>(&self, rng: &mut R) -> T;
    }
}

pub mod seq {
    pub trait SliceRandom {
        type Item;
        fn choose<R: ?Sized>(&self, rng: &mut R) -> Option<&Self::Item>;
    }

    impl<T> SliceRandom for [T] {
        type Item = T;
        fn choose<R: ?Sized>(&self, _: &mut R) -> Option<&T> {
            unreachable!("nothing is drawn at random")
        }
    }
}
