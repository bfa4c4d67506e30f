//! The three type names that esc_manager.rs takes from the crate heapless, for its aliases alone.
#![no_std]
pub mod spsc {
    use core::marker::PhantomData;
    pub struct Queue<T, const N: usize>(PhantomData<T>);
    pub struct Producer<'a, T>(PhantomData<&'a T>);
    pub struct Consumer<'a, T>(PhantomData<&'a T>);
}
