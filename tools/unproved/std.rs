//! What the sources of the program take from Rattle's std and name otherwise in Rust's: calls that take an allocator and may
//! answer that there is no memory, and the handle on the machine that `main` is given. Here memory is Rust's, so none is refused.
use std::ops::{Deref, DerefMut};

#[derive(Clone, Copy)]
pub struct Global;

#[derive(Clone, Copy, Debug)]
pub struct AllocError;

pub struct AllocFailed<T>(pub T);

/// Every value can be dropped, which Rattle asks for by a bound.
pub trait Drop {}

impl<T> Drop for T {}

#[derive(Debug)]
pub struct Vec<T>(std::vec::Vec<T>);

impl<T> Vec<T> {
    pub fn new(_: Global) -> Self {
        Vec(std::vec::Vec::new())
    }
    pub fn with_capacity(_: Global, room: usize) -> Result<Self, AllocError> {
        Ok(Vec(std::vec::Vec::with_capacity(room)))
    }
    pub fn push(&mut self, item: T) -> Result<(), AllocFailed<T>> {
        self.0.push(item);
        Ok(())
    }
    pub fn pop(&mut self) -> Option<T> {
        self.0.pop()
    }
    pub fn as_slice(&self) -> &[T] {
        &self.0
    }
}

impl<T: Clone> Vec<T> {
    pub fn from_slice(_: Global, items: &[T]) -> Result<Self, AllocError> {
        Ok(Vec(items.to_vec()))
    }
    pub fn extend_from_slice(&mut self, items: &[T]) -> Result<(), AllocError> {
        self.0.extend_from_slice(items);
        Ok(())
    }
    pub fn resize(&mut self, len: usize, item: T) -> Result<(), AllocError> {
        self.0.resize(len, item);
        Ok(())
    }
}

impl<T> Deref for Vec<T> {
    type Target = [T];
    fn deref(&self) -> &[T] {
        &self.0
    }
}

impl<T> DerefMut for Vec<T> {
    fn deref_mut(&mut self) -> &mut [T] {
        &mut self.0
    }
}

impl<T> IntoIterator for Vec<T> {
    type Item = T;
    type IntoIter = std::vec::IntoIter<T>;
    fn into_iter(self) -> Self::IntoIter {
        self.0.into_iter()
    }
}

#[derive(Debug)]
pub struct Box<T>(std::boxed::Box<T>);

impl<T> Box<T> {
    pub fn new(_: Global, item: T) -> Result<Self, AllocFailed<T>> {
        Ok(Box(std::boxed::Box::new(item)))
    }
}

impl<T> Deref for Box<T> {
    type Target = T;
    fn deref(&self) -> &T {
        &self.0
    }
}

impl<T> DerefMut for Box<T> {
    fn deref_mut(&mut self) -> &mut T {
        &mut self.0
    }
}

/// What `main` is given.
pub struct HostRuntime;

/// A standard stream, written without a buffer.
pub struct Stream(std::mem::ManuallyDrop<std::fs::File>);

impl HostRuntime {
    fn stream(number: i32) -> Stream {
        use std::os::fd::FromRawFd;
        // The file is never closed, so the number stays the stream's own.
        Stream(std::mem::ManuallyDrop::new(unsafe { std::fs::File::from_raw_fd(number) }))
    }
    pub fn alloc(&self) -> Global {
        Global
    }
    pub fn stdin(&self) -> Stream {
        Self::stream(0)
    }
    pub fn stdout(&self) -> Stream {
        Self::stream(1)
    }
    pub fn stderr(&self) -> Stream {
        Self::stream(2)
    }
}

impl std::io::Read for Stream {
    fn read(&mut self, buf: &mut [u8]) -> std::io::Result<usize> {
        self.0.read(buf)
    }
}

impl std::io::Write for Stream {
    fn write(&mut self, buf: &[u8]) -> std::io::Result<usize> {
        self.0.write(buf)
    }
    fn flush(&mut self) -> std::io::Result<()> {
        Ok(())
    }
}

/// The arguments, as text, or an error where one isn't.
pub struct Args(std::vec::IntoIter<String>);

pub fn args(_: &HostRuntime) -> std::io::Result<Args> {
    let words: Option<std::vec::Vec<String>> = std::env::args_os().map(|word| word.into_string().ok()).collect();
    match words {
        Some(words) => Ok(Args(words.into_iter())),
        None => Err(std::io::ErrorKind::InvalidData.into()),
    }
}

impl Args {
    pub fn next(&mut self) -> Option<String> {
        self.0.next()
    }
    pub fn collect(self, _: Global) -> Result<Vec<String>, AllocError> {
        Ok(Vec(self.0.collect()))
    }
}
