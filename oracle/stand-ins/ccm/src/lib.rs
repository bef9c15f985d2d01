//! Stand-in for the crate `ccm` 0.4, so that the customer's files compile. Nothing is enciphered and no answer of the runs calls it.
#![no_std]

use cipher::{BlockCipher, BlockCipherKey, BlockEncrypt, NewBlockCipher};
use core::marker::PhantomData;

pub mod aead {
    pub use cipher::generic_array;
    use generic_array::GenericArray;

    pub struct Error;

    pub trait NewAead: Sized {
        type KeySize;
        fn new(key: &GenericArray<u8, Self::KeySize>) -> Self;
    }

    pub trait AeadInPlace {
        type NonceSize;
        type TagSize;

        fn encrypt_in_place_detached(
            &self,
            nonce: &GenericArray<u8, Self::NonceSize>,
            associated: &[u8],
            buffer: &mut [u8],
        ) -> Result<GenericArray<u8, Self::TagSize>, Error>;

        fn decrypt_in_place_detached(
            &self,
            nonce: &GenericArray<u8, Self::NonceSize>,
            associated: &[u8],
            buffer: &mut [u8],
            tag: &GenericArray<u8, Self::TagSize>,
        ) -> Result<(), Error>;
    }
}

use aead::generic_array::GenericArray;

/// CCM over a block cipher, by the sizes of tag and nonce.
pub struct Ccm<C, M, N>(PhantomData<(C, M, N)>);

impl<C: NewBlockCipher + BlockCipher + BlockEncrypt, M, N> aead::NewAead for Ccm<C, M, N> {
    type KeySize = C::KeySize;

    fn new(_key: &BlockCipherKey<C>) -> Self {
        unimplemented!()
    }
}

impl<C: NewBlockCipher + BlockCipher + BlockEncrypt, M, N> aead::AeadInPlace for Ccm<C, M, N> {
    type NonceSize = N;
    type TagSize = M;

    fn encrypt_in_place_detached(
        &self,
        _nonce: &GenericArray<u8, N>,
        _associated: &[u8],
        _buffer: &mut [u8],
    ) -> Result<GenericArray<u8, M>, aead::Error> {
        unimplemented!()
    }

    fn decrypt_in_place_detached(
        &self,
        _nonce: &GenericArray<u8, N>,
        _associated: &[u8],
        _buffer: &mut [u8],
        _tag: &GenericArray<u8, M>,
    ) -> Result<(), aead::Error> {
        unimplemented!()
    }
}
