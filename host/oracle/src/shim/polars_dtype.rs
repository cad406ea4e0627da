//! Categories, which are off.

pub mod categorical {
    pub struct CategoricalPhysical;
}
