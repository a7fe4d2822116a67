//! Stands in for the crate `rand`: nothing here chooses a replica, so nothing is random.
pub struct Rng;

pub fn rng() -> Rng {
    Rng
}

pub mod seq {
    pub trait IndexedRandom<T> {
        fn choose(&self, rng: &mut super::Rng) -> Option<&T>;
    }
    impl<T> IndexedRandom<T> for [T] {
        fn choose(&self, _: &mut super::Rng) -> Option<&T> {
            self.first()
        }
    }
}
