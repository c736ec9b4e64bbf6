//! A writer of small ELF32 executables, most significant byte first, by the System V ABI: "ELF
//! header", "Section header", "String table", "Symbol table". It writes what it is told, so that
//! each member can be wrong.

/// A member of the ELF header that the importer looks at: where it stands, how many bytes it
/// has, and what it is in an executable for PowerPC.
pub const HEADER: [(usize, usize, u32); 6] = [
    (0, 4, 0x7F45_4C46), // "\x7FELF"
    (4, 1, 1),           // EI_CLASS: ELFCLASS32
    (5, 1, 2),           // EI_DATA: ELFDATA2MSB
    (16, 2, 2),          // e_type: ET_EXEC
    (18, 2, 20),         // e_machine: EM_PPC
    (46, 2, 40),         // e_shentsize
];

pub const E_SHOFF: usize = 32;
pub const E_SHNUM: usize = 48;
pub const E_SHSTRNDX: usize = 50;

pub const SHT_PROGBITS: u32 = 1;
pub const SHT_SYMTAB: u32 = 2;
pub const SHT_STRTAB: u32 = 3;
pub const SHT_NOBITS: u32 = 8;

pub const SHF_WRITE: u32 = 1;
pub const SHF_ALLOC: u32 = 2;
pub const SHF_EXECINSTR: u32 = 4;

/// The members of a section header, 4 bytes each.
pub const SH_NAME: usize = 0;
pub const SH_TYPE: usize = 4;
pub const SH_FLAGS: usize = 8;
pub const SH_OFFSET: usize = 16;
pub const SH_SIZE: usize = 20;
pub const SH_LINK: usize = 24;

pub struct Section {
    pub name: Vec<u8>,
    pub kind: u32,
    pub flags: u32,
    pub address: u32,
    /// NOBITS has none in the file.
    pub size: u32,
    pub bytes: Vec<u8>,
}

pub struct Symbol {
    pub name: Vec<u8>,
    pub value: u32,
    pub size: u32,
    pub info: u8,
    pub section: u16,
}

#[derive(Default)]
pub struct Elf {
    /// Numbered from 1 on: section header 0 is all zeros.
    pub sections: Vec<Section>,
    /// Past the null symbol. With none there is no symbol table.
    pub symbols: Vec<Symbol>,
    /// A string that ends another is a part of it, as linkers do it; else each has its own place,
    /// however often it comes.
    pub shared: bool,
    /// The section headers stand behind the ELF header, and not at the end.
    pub headers_first: bool,
}

/// A file, and where its parts are.
pub struct Written {
    pub file: Vec<u8>,
    pub headers: usize,
    /// How many section headers.
    pub count: usize,
    /// The section of the sections' names, of the symbols, and of their names; 0 if not there.
    pub names: usize,
    pub symbols: usize,
    pub symbol_names: usize,
}

impl Written {
    /// Where a member of section header k stands.
    pub fn member(&self, k: usize, member: usize) -> usize {
        self.headers + 40 * k + member
    }

    pub fn word(&self, at: usize) -> u32 {
        u32::from_be_bytes(self.file[at..at + 4].try_into().unwrap())
    }

    pub fn put_word(&mut self, at: usize, value: u32) {
        put(&mut self.file, at, 4, value);
    }
}

/// The lowest `width` bytes of a number, the highest first.
pub fn put(file: &mut [u8], at: usize, width: usize, value: u32) {
    file[at..at + width].copy_from_slice(&value.to_be_bytes()[4 - width..]);
}

/// "The first byte, which is index zero, is defined to hold a null character."
struct Strings {
    bytes: Vec<u8>,
    shared: bool,
}

impl Strings {
    fn new(shared: bool) -> Self {
        Self { bytes: vec![0], shared }
    }

    fn enter(&mut self, string: &[u8]) -> u32 {
        let ended = [string, &[0]].concat();
        if self.shared {
            let mut places = self.bytes.windows(ended.len());
            if let Some(at) = places.position(|place| place == ended) {
                return at as u32;
            }
        }
        self.bytes.extend(&ended);
        (self.bytes.len() - ended.len()) as u32
    }
}

impl Elf {
    pub fn write(&self) -> Written {
        let mut strings = Strings::new(self.shared);
        let (table, symbol_strings) = self.symbol_table();
        let added = if self.symbols.is_empty() { 1 } else { 3 };
        let count = 1 + self.sections.len() + added;
        let headers_len = 40 * count;

        let mut file = vec![0; 52];
        let at_front = 52;
        if self.headers_first {
            file.resize(52 + headers_len, 0);
        }
        let mut headers = vec![[0; 10]];
        for s in &self.sections {
            let offset = file.len() as u32;
            let name = strings.enter(&s.name);
            headers.push([name, s.kind, s.flags, s.address, offset, s.size, 0, 0, 4, 0]);
            file.extend(&s.bytes);
        }
        let mut symbols = 0;
        if !self.symbols.is_empty() {
            symbols = headers.len();
            let (name, link) = (strings.enter(b".symtab"), symbols as u32 + 1);
            let (offset, size) = (file.len() as u32, table.len() as u32);
            headers.push([name, SHT_SYMTAB, 0, 0, offset, size, link, 1, 4, 16]);
            file.extend(table);
            push_strings(b".strtab", symbol_strings, &mut strings, &mut headers, &mut file);
        }
        let names = headers.len();
        let name = strings.enter(b".shstrtab");
        let (offset, size) = (file.len() as u32, strings.bytes.len() as u32);
        headers.push([name, SHT_STRTAB, 0, 0, offset, size, 0, 0, 1, 0]);
        file.extend(&strings.bytes);

        let at = if self.headers_first { at_front } else { file.len() };
        let headers: Vec<u8> = headers.iter().flatten().flat_map(|w| w.to_be_bytes()).collect();
        if !self.headers_first {
            file.resize(at + headers_len, 0);
        }
        file[at..at + headers_len].copy_from_slice(&headers);
        put_header(&mut file, at, count, names);
        let symbol_names = if symbols == 0 { 0 } else { symbols + 1 };
        Written { file, headers: at, count, names, symbols, symbol_names }
    }

    /// The symbol table's bytes, and the strings that it uses.
    fn symbol_table(&self) -> (Vec<u8>, Strings) {
        let mut strings = Strings::new(self.shared);
        let mut table = vec![0; 16];
        for s in &self.symbols {
            let words = [strings.enter(&s.name), s.value, s.size];
            table.extend(words.iter().flat_map(|w| w.to_be_bytes()));
            table.extend([s.info, 0]);
            table.extend(s.section.to_be_bytes());
        }
        (table, strings)
    }
}

fn push_strings(
    name: &[u8],
    table: Strings,
    names: &mut Strings,
    headers: &mut Vec<[u32; 10]>,
    file: &mut Vec<u8>,
) {
    let (offset, size) = (file.len() as u32, table.bytes.len() as u32);
    headers.push([names.enter(name), SHT_STRTAB, 0, 0, offset, size, 0, 0, 1, 0]);
    file.extend(table.bytes);
}

fn put_header(file: &mut [u8], headers: usize, count: usize, names: usize) {
    for (at, width, value) in HEADER {
        put(file, at, width, value);
    }
    // EI_VERSION, e_version: EV_CURRENT; e_ehsize.
    put(file, 6, 1, 1);
    put(file, 20, 4, 1);
    put(file, 40, 2, 52);
    put(file, E_SHOFF, 4, headers as u32);
    put(file, E_SHNUM, 2, count as u32);
    put(file, E_SHSTRNDX, 2, names as u32);
}
