//! Where the zoom curve of the rig's lens ends: the attribute beside the lens table of an upload.
//!
//!     cargo run --example lens -- ../../samples/rig.hex

use std::error::Error;
use std::{env, fs};

use vindaskot::text::decode_to_string;
use vindaskot::{AdsSymbolInfo, Index, room};

const LENS: &[u8] = b"MAIN.stLens";
const CURVE_END: &[u8] = b"ZoomCurveEnd";

fn main() -> Result<(), Box<dyn Error>> {
    let path = env::args().nth(1).ok_or("usage: lens UPLOAD.hex")?;
    let upload = bytes_of(fs::read_to_string(path)?.trim_end())?;

    let mut slots = vec![0; room(upload.len())?];
    let index = Index::build(&upload, &mut slots)?;
    println!("{} bytes, {} symbols", upload.len(), index.starts().len());

    let start = index.find(&upload, LENS)?;
    let lens = AdsSymbolInfo::try_from_slice(&upload[start..])?;
    println!(
        "{} at {start}: {} ({})",
        decode_to_string(lens.name())?,
        decode_to_string(lens.type_name())?,
        decode_to_string(lens.comment())?,
    );

    let end = lens.attribute_named(CURVE_END)?;
    println!(
        "{} = {}",
        decode_to_string(end.name())?,
        decode_to_string(end.value())?
    );
    Ok(())
}

/// The bytes of a hexadecimal line.
fn bytes_of(line: &str) -> Result<Vec<u8>, Box<dyn Error>> {
    let pairs = line.as_bytes().chunks(2);
    let byte = |pair| Ok(u8::from_str_radix(std::str::from_utf8(pair)?, 16)?);
    pairs.map(byte).collect()
}
