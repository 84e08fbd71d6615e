//! Ledgers, which contracts count with. They have no bytes, here as in the sources.
pub mod ledger {
    use core::marker::PhantomData;

    /// The name of a ledger.
    pub trait Ledger {}

    /// A ledger that isn't open yet.
    pub struct Blank;

    /// The total of a ledger.
    pub struct Book<G: Ledger>(PhantomData<G>);

    /// A part of a ledger.
    pub struct Share<G: Ledger>(PhantomData<G>);

    impl Blank {
        /// A ledger of so many parts.
        pub fn new(_parts: u64) -> Blank {
            Blank
        }

        /// Opens the ledger.
        pub fn open<G: Ledger>(self) -> (Book<G>, Share<G>) {
            (Book(PhantomData), Share(PhantomData))
        }
    }

    impl<G: Ledger> Book<G> {
        /// Adds to a part.
        #[inline(always)]
        pub fn add(&mut self, _share: &mut Share<G>, _more: u64) {}
    }
}
