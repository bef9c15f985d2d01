//! Stand-in for the crate `cipher` 0.3, so that the customer's files compile. No cipher is behind it and no answer of the runs calls it.
#![no_std]

pub mod generic_array {
    pub mod typenum {
        pub mod consts {
            pub struct U1;
            pub struct U4;
            pub struct U8;
            pub struct U13;
            pub struct U16;
        }
    }

    use typenum::consts::{U1, U13, U16, U4, U8};

    pub trait ArrayLength<T> {}
    impl<T> ArrayLength<T> for U1 {}
    impl<T> ArrayLength<T> for U4 {}
    impl<T> ArrayLength<T> for U8 {}
    impl<T> ArrayLength<T> for U13 {}
    impl<T> ArrayLength<T> for U16 {}

    /// An array whose length is a type; here without any content.
    pub struct GenericArray<T, N>(core::marker::PhantomData<(T, N)>);

    impl<T, N> Clone for GenericArray<T, N> {
        fn clone(&self) -> Self {
            GenericArray(self.0)
        }
    }

    impl<T, N> GenericArray<T, N> {
        pub fn from_slice(_slice: &[T]) -> &Self {
            unimplemented!()
        }

        pub fn as_slice(&self) -> &[T] {
            unimplemented!()
        }
    }
}

pub use generic_array::typenum::consts;
use generic_array::{ArrayLength, GenericArray};

pub type Block<C> = GenericArray<u8, <C as BlockCipher>::BlockSize>;
pub type BlockCipherKey<C> = GenericArray<u8, <C as NewBlockCipher>::KeySize>;

pub trait BlockCipher {
    type BlockSize: ArrayLength<u8>;
    type ParBlocks: ArrayLength<u8>;
}

pub trait BlockEncrypt: BlockCipher {
    fn encrypt_block(&self, block: &mut Block<Self>)
    where
        Self: Sized;
}

pub trait BlockDecrypt: BlockCipher {
    fn decrypt_block(&self, block: &mut Block<Self>)
    where
        Self: Sized;
}

pub trait NewBlockCipher: Sized {
    type KeySize: ArrayLength<u8>;
    fn new(key: &BlockCipherKey<Self>) -> Self;
}
