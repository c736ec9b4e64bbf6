//! Stand-ins for modules that the sources name but that aren't given. No stage
//! of the oracle calls any of these functions.

pub mod analysis {
    use anyhow::Result;

    use crate::{
        analysis::cfa::SectionAddress,
        obj::{ObjInfo, ObjRelocKind, ObjSection},
    };

    pub fn read_u32(_section: &ObjSection, _address: u32) -> Option<u32> {
        unimplemented!()
    }

    pub fn read_address(
        _obj: &ObjInfo,
        _section: &ObjSection,
        _address: u32,
    ) -> Result<SectionAddress> {
        unimplemented!()
    }

    pub fn relocation_target_for(
        _obj: &ObjInfo,
        _addr: SectionAddress,
        _kind: Option<ObjRelocKind>,
    ) -> Result<Option<SectionAddress>> {
        unimplemented!()
    }
}

pub mod config {
    use anyhow::Result;

    use crate::obj::ObjSymbol;

    pub fn is_auto_symbol(_symbol: &ObjSymbol) -> bool {
        unimplemented!()
    }
    pub fn is_auto_label(_symbol: &ObjSymbol) -> bool {
        unimplemented!()
    }
    pub fn is_auto_jump_table(_symbol: &ObjSymbol) -> bool {
        unimplemented!()
    }
    pub fn parse_u32(_s: &str) -> Result<u32> {
        unimplemented!()
    }
}

pub mod rel {
    /// Only stored in `ObjInfo::unresolved_relocations`, always empty here.
    #[derive(Debug, Clone)]
    pub struct RelReloc;
}

/// The traits that util/comment.rs implements, and what its derives would make.
pub mod reader {
    use std::io::{self, Read, Seek, Write};

    use crate::util::comment::MWFloatKind;

    #[derive(Debug, Copy, Clone)]
    pub enum Endian {
        Big,
        Little,
    }

    pub trait FromReader: Sized {
        type Args;
        const STATIC_SIZE: usize;
        fn from_reader_args<R>(reader: &mut R, e: Endian, args: Self::Args) -> io::Result<Self>
        where
            R: Read + Seek + ?Sized;
        fn from_reader<R>(reader: &mut R, e: Endian) -> io::Result<Self>
        where
            Self::Args: Default,
            R: Read + Seek + ?Sized,
        {
            Self::from_reader_args(reader, e, Default::default())
        }
    }

    pub trait ToWriter {
        fn to_writer<W>(&self, writer: &mut W, e: Endian) -> io::Result<()>
        where
            W: Write + ?Sized;
        fn write_size(&self) -> usize;
    }

    macro_rules! never {
        ($($t:ty = $size:expr),*) => { $(
            impl FromReader for $t {
                type Args = ();
                const STATIC_SIZE: usize = $size;
                fn from_reader_args<R>(_reader: &mut R, _e: Endian, _args: ()) -> io::Result<Self>
                where R: Read + Seek + ?Sized { unimplemented!() }
            }
            impl ToWriter for $t {
                fn to_writer<W>(&self, _writer: &mut W, _e: Endian) -> io::Result<()>
                where W: Write + ?Sized { unimplemented!() }
                fn write_size(&self) -> usize { $size }
            }
        )* };
    }
    never!(u8 = 1, u16 = 2, u32 = 4);

    impl<const N: usize> FromReader for [u8; N] {
        type Args = ();
        const STATIC_SIZE: usize = N;
        fn from_reader_args<R>(_reader: &mut R, _e: Endian, _args: ()) -> io::Result<Self>
        where
            R: Read + Seek + ?Sized,
        {
            unimplemented!()
        }
    }

    impl ToWriter for [u8] {
        fn to_writer<W>(&self, _writer: &mut W, _e: Endian) -> io::Result<()>
        where
            W: Write + ?Sized,
        {
            unimplemented!()
        }

        fn write_size(&self) -> usize {
            self.len()
        }
    }

    pub fn skip_bytes<const N: usize, R>(_reader: &mut R) -> io::Result<()>
    where
        R: Read + Seek + ?Sized,
    {
        unimplemented!()
    }

    pub const fn struct_size<const N: usize>(sizes: [usize; N]) -> usize {
        let mut sum = 0;
        let mut i = 0;
        while i < N {
            sum += sizes[i];
            i += 1;
        }
        sum
    }

    impl From<MWFloatKind> for u8 {
        fn from(kind: MWFloatKind) -> u8 {
            kind as u8
        }
    }

    impl TryFrom<u8> for MWFloatKind {
        type Error = ();
        fn try_from(v: u8) -> Result<Self, ()> {
            match v {
                0 => Ok(Self::None),
                1 => Ok(Self::Soft),
                2 => Ok(Self::Hard),
                _ => Err(()),
            }
        }
    }
}
