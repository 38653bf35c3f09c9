//! The byte format of an input, written and read, and its hexadecimal form.

use crate::input::{Function, Identifier, Input, Row, Scope, Tree};

const VERSION: u8 = 1;
const ABSENT: u32 = u32::MAX;

/// The bytes of an input.
pub fn write(input: &Input) -> Vec<u8> {
    let mut bytes = vec![VERSION];
    section(&mut bytes, b'I', |out| {
        for identifier in &input.identifiers {
            number(out, identifier.declaration);
            out.push(identifier.tag);
        }
    });
    for scope in &input.scopes {
        section(&mut bytes, b'S', |out| {
            list(out, &scope.dependencies);
            list(out, &scope.declarations);
            list(out, &scope.reassignments);
        });
    }
    for function in &input.functions {
        section(&mut bytes, b'F', |out| {
            list(out, &function.parameters);
            list(out, &function.nested);
        });
    }
    for tree in &input.trees {
        section(&mut bytes, b'T', |out| {
            list(out, &tree.parameters);
            row(out, &tree.body);
        });
    }
    bytes
}

fn section(out: &mut Vec<u8>, letter: u8, content: impl FnOnce(&mut Vec<u8>)) {
    measured(out, |out| {
        out.push(letter);
        content(out);
    });
}

/// Content after its own length in four bytes.
fn measured(out: &mut Vec<u8>, content: impl FnOnce(&mut Vec<u8>)) {
    let start = out.len();
    number(out, 0);
    content(out);
    let length = (out.len() - start - 4) as u32;
    out[start..start + 4].copy_from_slice(&length.to_be_bytes());
}

fn number(out: &mut Vec<u8>, n: u32) {
    out.extend_from_slice(&n.to_be_bytes());
}

fn list(out: &mut Vec<u8>, numbers: &[u32]) {
    number(out, numbers.len() as u32);
    for &n in numbers {
        number(out, n);
    }
}

fn row(out: &mut Vec<u8>, given: &Row) {
    measured(out, |out| {
        out.push(given.code);
        number(out, given.identifier.unwrap_or(ABSENT));
        number(out, given.number.unwrap_or(ABSENT));
        out.push(given.kind);
        out.push(given.mode);
        list(out, &given.operands);
        list(out, &given.marks);
        for child in &given.children {
            row(out, child);
        }
    });
}

/// The input of some bytes, or what is wrong with them.
pub fn read(bytes: &[u8]) -> Result<Input, String> {
    let mut all = Reader { bytes, at: 0 };
    if all.byte()? != VERSION {
        return Err("version".to_string());
    }
    let mut input = Input::default();
    let mut last = b' ';
    while !all.ended() {
        let mut part = all.part()?;
        let letter = part.byte()?;
        if !follows(last, letter) {
            return Err(format!("letter {letter:#x}"));
        }
        last = letter;
        read_section(&mut input, letter, &mut part)?;
        part.end()?;
    }
    if last == b' ' { Err("no section".to_string()) } else { Ok(input) }
}

/// One I first, then any S, then any F, then any T.
fn follows(last: u8, letter: u8) -> bool {
    match letter {
        b'I' => last == b' ',
        b'S' => matches!(last, b'I' | b'S'),
        b'F' => matches!(last, b'I' | b'S' | b'F'),
        b'T' => matches!(last, b'I' | b'S' | b'F' | b'T'),
        _ => false,
    }
}

fn read_section(input: &mut Input, letter: u8, part: &mut Reader) -> Result<(), String> {
    match letter {
        b'I' => {
            while !part.ended() {
                let declaration = part.number()?;
                input.identifiers.push(Identifier { declaration, tag: part.byte()? });
            }
        }
        b'S' => input.scopes.push(Scope {
            dependencies: part.list()?,
            declarations: part.list()?,
            reassignments: part.list()?,
        }),
        b'F' => input.functions.push(Function { parameters: part.list()?, nested: part.list()? }),
        _ => input.trees.push(Tree { parameters: part.list()?, body: part.row()? }),
    }
    Ok(())
}

struct Reader<'b> {
    bytes: &'b [u8],
    at: usize,
}

impl<'b> Reader<'b> {
    fn ended(&self) -> bool {
        self.at == self.bytes.len()
    }

    fn end(&self) -> Result<(), String> {
        if self.ended() { Ok(()) } else { Err("bytes left over".to_string()) }
    }

    fn take(&mut self, count: usize) -> Result<&'b [u8], String> {
        let end = self.at.checked_add(count).ok_or("length")?;
        let taken = self.bytes.get(self.at..end).ok_or("too short")?;
        self.at = end;
        Ok(taken)
    }

    fn byte(&mut self) -> Result<u8, String> {
        Ok(self.take(1)?[0])
    }

    fn number(&mut self) -> Result<u32, String> {
        let bytes = self.take(4)?;
        Ok(u32::from_be_bytes([bytes[0], bytes[1], bytes[2], bytes[3]]))
    }

    fn optional(&mut self) -> Result<Option<u32>, String> {
        Ok(Some(self.number()?).filter(|&n| n != ABSENT))
    }

    fn part(&mut self) -> Result<Reader<'b>, String> {
        let length = self.number()?;
        Ok(Reader { bytes: self.take(length as usize)?, at: 0 })
    }

    fn list(&mut self) -> Result<Vec<u32>, String> {
        let count = self.number()?;
        (0..count).map(|_| self.number()).collect()
    }

    fn row(&mut self) -> Result<Row, String> {
        let mut part = self.part()?;
        let mut row = Row {
            code: part.byte()?,
            identifier: part.optional()?,
            number: part.optional()?,
            kind: part.byte()?,
            mode: part.byte()?,
            operands: part.list()?,
            marks: part.list()?,
            children: Vec::new(),
        };
        while !part.ended() {
            row.children.push(part.row()?);
        }
        Ok(row)
    }
}

/// Lower-case hexadecimal digits without spaces.
pub fn to_hex(bytes: &[u8]) -> String {
    const DIGITS: &[u8; 16] = b"0123456789abcdef";
    let mut text = String::with_capacity(2 * bytes.len());
    for byte in bytes {
        text.push(DIGITS[usize::from(byte >> 4)] as char);
        text.push(DIGITS[usize::from(byte & 15)] as char);
    }
    text
}

pub fn from_hex(text: &str) -> Result<Vec<u8>, String> {
    if !text.len().is_multiple_of(2) || !text.is_ascii() {
        return Err("hexadecimal digits".to_string());
    }
    (0..text.len())
        .step_by(2)
        .map(|at| u8::from_str_radix(&text[at..at + 2], 16).map_err(|error| error.to_string()))
        .collect()
}
