//! Stands in for the crate `cfb`, which is not supplied.
//!
//! Real: named streams that can be looked for, opened and created anew, and
//! that give back exactly the bytes written. Not here: the compound file
//! format itself. Streams live in memory and nothing is ever written to an
//! `F`; names are not checked for length or characters.

use std::cell::RefCell;
use std::collections::BTreeMap;
use std::io::{self, Cursor, Read, Seek, SeekFrom, Write};
use std::marker::PhantomData;
use std::path::{Path, PathBuf};
use std::rc::Rc;

type Bytes = Rc<RefCell<Cursor<Vec<u8>>>>;

/// A compound file: here only a map from names to bytes.
pub struct CompoundFile<F> {
    streams: BTreeMap<PathBuf, Bytes>,
    file: PhantomData<F>,
}

impl<F> CompoundFile<F> {
    /// A compound file without streams. The real crate's `create` takes the
    /// file to write to; there is none here.
    pub fn in_memory() -> CompoundFile<F> {
        CompoundFile { streams: BTreeMap::new(), file: PhantomData }
    }

    /// Whether a stream of that name exists.
    pub fn exists<P: AsRef<Path>>(&self, path: P) -> bool {
        self.streams.contains_key(path.as_ref())
    }

    /// Opens an existing stream at its start.
    pub fn open_stream<P: AsRef<Path>>(
        &mut self,
        path: P,
    ) -> io::Result<Stream<F>> {
        match self.streams.get(path.as_ref()) {
            Some(bytes) => {
                bytes.borrow_mut().set_position(0);
                Ok(Stream { bytes: bytes.clone(), file: PhantomData })
            }
            None => Err(io::Error::new(
                io::ErrorKind::NotFound,
                format!("No such stream: {:?}", path.as_ref()),
            )),
        }
    }

    /// Creates an empty stream, in place of one of the same name.
    pub fn create_stream<P: AsRef<Path>>(
        &mut self,
        path: P,
    ) -> io::Result<Stream<F>> {
        let bytes = Bytes::default();
        self.streams.insert(path.as_ref().to_path_buf(), bytes.clone());
        Ok(Stream { bytes, file: PhantomData })
    }
}

/// One stream of a compound file.
pub struct Stream<F> {
    bytes: Bytes,
    file: PhantomData<F>,
}

impl<F> Read for Stream<F> {
    fn read(&mut self, buffer: &mut [u8]) -> io::Result<usize> {
        self.bytes.borrow_mut().read(buffer)
    }
}

impl<F> Write for Stream<F> {
    fn write(&mut self, buffer: &[u8]) -> io::Result<usize> {
        self.bytes.borrow_mut().write(buffer)
    }

    fn flush(&mut self) -> io::Result<()> {
        Ok(())
    }
}

impl<F> Seek for Stream<F> {
    fn seek(&mut self, position: SeekFrom) -> io::Result<u64> {
        self.bytes.borrow_mut().seek(position)
    }
}
