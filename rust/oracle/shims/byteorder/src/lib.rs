//! Stands in for the crate `byteorder`, which is not supplied.
//!
//! Real: little-endian reading and writing of the five number types that
//! `column.rs` and `stringpool.rs` use, byte for byte what the file format
//! has. Not here: big-endian order, floats, every other method.

use std::io::{self, Read, Write};

/// The orders that can be asked for; there is only one.
pub trait ByteOrder {}

/// The only order the copied files name.
pub enum LittleEndian {}

impl ByteOrder for LittleEndian {}

fn bytes_of<const N: usize, R: Read + ?Sized>(
    reader: &mut R,
) -> io::Result<[u8; N]> {
    let mut bytes = [0; N];
    reader.read_exact(&mut bytes)?;
    Ok(bytes)
}

/// Reading numbers from any reader.
pub trait ReadBytesExt: Read {
    fn read_u8(&mut self) -> io::Result<u8> {
        Ok(u8::from_le_bytes(bytes_of(self)?))
    }

    fn read_u16<T: ByteOrder>(&mut self) -> io::Result<u16> {
        Ok(u16::from_le_bytes(bytes_of(self)?))
    }

    fn read_i16<T: ByteOrder>(&mut self) -> io::Result<i16> {
        Ok(i16::from_le_bytes(bytes_of(self)?))
    }

    fn read_u32<T: ByteOrder>(&mut self) -> io::Result<u32> {
        Ok(u32::from_le_bytes(bytes_of(self)?))
    }

    fn read_i32<T: ByteOrder>(&mut self) -> io::Result<i32> {
        Ok(i32::from_le_bytes(bytes_of(self)?))
    }
}

impl<R: Read + ?Sized> ReadBytesExt for R {}

/// Writing numbers to any writer.
pub trait WriteBytesExt: Write {
    fn write_u8(&mut self, number: u8) -> io::Result<()> {
        self.write_all(&number.to_le_bytes())
    }

    fn write_u16<T: ByteOrder>(&mut self, number: u16) -> io::Result<()> {
        self.write_all(&number.to_le_bytes())
    }

    fn write_i16<T: ByteOrder>(&mut self, number: i16) -> io::Result<()> {
        self.write_all(&number.to_le_bytes())
    }

    fn write_u32<T: ByteOrder>(&mut self, number: u32) -> io::Result<()> {
        self.write_all(&number.to_le_bytes())
    }

    fn write_i32<T: ByteOrder>(&mut self, number: i32) -> io::Result<()> {
        self.write_all(&number.to_le_bytes())
    }
}

impl<W: Write + ?Sized> WriteBytesExt for W {}
