//! Links libvindaskot.a, after a look whether it is there, made for the target, of this crate's interface, and not older
//! than what it is made of.

use std::env;
use std::fs;
use std::path::{self, Path, PathBuf};
use std::time::SystemTime;

const ARCHIVE: &str = "libvindaskot.a";

/// The processors that an archive can be made for: rustc's name and ELF's number.
const MACHINES: [(&str, u16); 2] = [("x86_64", 62), ("aarch64", 183)];

/// Where `tools/archive` puts the archive, and what it is made of. Both paths count from this crate's folder, where cargo
/// runs this program.
const MADE: &str = "../../target/staticlib";
const CRATES: &str = "../../crates";

/// Where the archive's functions are declared, and which of them tells its interface by its name.
const SYS: &str = "src/sys.rs";

fn main() {
    println!("cargo::rerun-if-env-changed=VINDASKOT_LIB_DIR");
    println!("cargo::rerun-if-changed=build.rs");
    println!("cargo::rerun-if-changed={SYS}");
    let given = env::var_os("VINDASKOT_LIB_DIR").filter(|given| !given.is_empty());
    let folder = whole(given.as_ref().map_or(MADE.into(), PathBuf::from));
    let archive = folder.join(ARCHIVE);
    // An older file in the archive's place is no newer than this program's last run; that the folder has changed is.
    println!("cargo::rerun-if-changed={}", folder.display());
    println!("cargo::rerun-if-changed={}", archive.display());
    match check(&archive) {
        Ok(()) => {
            println!("cargo::rustc-link-search=native={}", folder.display());
            println!("cargo::rustc-link-lib=static=vindaskot");
        }
        Err(why) => println!("cargo::error={why}"),
    }
    // At its own place one command makes the archive anew, so an old one is an error there. One that was brought from
    // elsewhere may keep another machine's time.
    if let Some(why) = too_old(&archive) {
        let severity = if given.is_some() { "warning" } else { "error" };
        println!("cargo::{severity}={why}");
    }
}

fn whole(folder: PathBuf) -> PathBuf {
    let whole = fs::canonicalize(&folder).or_else(|_| path::absolute(&folder));
    whole.unwrap_or(folder)
}

/// When a file or folder was last changed; of a folder, the latest of all that is in it.
fn changed(path: &Path) -> Option<SystemTime> {
    let inside = fs::read_dir(path).into_iter().flatten().flatten();
    let latest = inside.filter_map(|entry| changed(&entry.path())).max();
    latest.or_else(|| fs::metadata(path).ok()?.modified().ok())
}

/// Says so if the archive is older than a source of the crates. Where the crates are not beside it, nothing is known.
fn too_old(archive: &Path) -> Option<String> {
    let made = changed(archive)?;
    let crates = fs::read_dir(CRATES).ok()?.flatten();
    let sources = crates.map(|one| one.path().join("src"));
    let sources = sources.filter(|source| source.is_dir());
    let newer = sources.filter(|source| {
        println!("cargo::rerun-if-changed={}", source.display());
        changed(source).is_some_and(|changed| made < changed)
    });
    let newest = newer.max_by_key(|source| changed(source))?;
    Some(format!(
        "{} is older than {}: make it anew with `tools/archive` in the repository's root",
        archive.display(),
        newest.display(),
    ))
}

fn check(archive: &Path) -> Result<(), String> {
    let shown = archive.display();
    let wanted = target_machine()?;
    let bytes = fs::read(archive).map_err(|why| {
        format!(
            "{shown} can't be read ({why}): make it with `tools/archive` in the repository's root, \
             or set VINDASKOT_LIB_DIR to the folder that holds {ARCHIVE}"
        )
    })?;
    match machine(&bytes) {
        Some(found) if found == wanted => {}
        Some(found) => {
            return Err(format!(
                "{shown} is for {}, and the target is {}: set VINDASKOT_LIB_DIR to the folder of an archive for it",
                machine_name(found),
                machine_name(wanted),
            ));
        }
        None => return Err(format!("{shown} is no archive of ELF object files")),
    }
    let needed = needed()?;
    match functions(&bytes) {
        Some(functions) if !functions.contains(&needed.as_bytes()) => Err(format!(
            "{shown} has another interface than this crate, since it lacks {needed}: \
             make it anew with `tools/archive` in the repository's root"
        )),
        // Where the archive has no index, the linker alone asks for the function.
        _ => Ok(()),
    }
}

/// The function that tells the interface by its name: what sys.rs needs of every archive.
fn needed() -> Result<String, String> {
    let sys = fs::read_to_string(SYS).map_err(|why| format!("{SYS} can't be read: {why}"))?;
    let declared = sys.split_once("static NEEDED: ").map(|(_, rest)| rest);
    let name = declared.and_then(|rest| rest.split_once(';')?.0.rsplit_once(" = "));
    name.map(|(_, name)| name.to_string())
        .ok_or_else(|| format!("{SYS} does not say what it needs"))
}

/// The ELF number of the target's processor, for the targets that the archive's calls are the same on.
fn target_machine() -> Result<u16, String> {
    let cfg = |name: &str| env::var(format!("CARGO_CFG_TARGET_{name}")).unwrap_or_default();
    let (arch, os, width) = (cfg("ARCH"), cfg("OS"), cfg("POINTER_WIDTH"));
    let known = MACHINES.iter().find(|(name, _)| *name == arch);
    match known {
        Some((_, number)) if os == "linux" && width == "64" => Ok(*number),
        _ => Err(format!(
            "{ARCHIVE} is made for 64-bit Linux on x86_64 or aarch64, \
             and the target is {arch}, {os}, {width} bits"
        )),
    }
}

fn machine_name(number: u16) -> String {
    let known = MACHINES.iter().find(|(_, known)| *known == number);
    known.map_or_else(
        || format!("ELF machine {number}"),
        |(name, _)| (*name).to_string(),
    )
}

/// The members of an archive, each with its name.
fn members(archive: &[u8]) -> impl Iterator<Item = (&[u8], &[u8])> {
    let mut rest = archive.strip_prefix(b"!<arch>\n").unwrap_or_default();
    std::iter::from_fn(move || {
        let (header, after) = rest.split_at_checked(60)?;
        let size = std::str::from_utf8(&header[48..58]).ok()?;
        let size: usize = size.trim_end().parse().ok()?;
        let member = after.get(..size)?;
        rest = after.get(size + size % 2..).unwrap_or_default();
        Some((header[..16].trim_ascii_end(), member))
    })
}

/// The processor of the first object file in the archive: its header's 16-bit number at 18.
fn machine(archive: &[u8]) -> Option<u16> {
    let mut objects = members(archive).filter(|(_, member)| member.starts_with(b"\x7fELF"));
    let (_, object) = objects.next()?;
    Some(u16::from_le_bytes([*object.get(18)?, *object.get(19)?]))
}

/// What the archive's index says that it has: a count, as many places, then the names, each with an end byte.
fn functions(archive: &[u8]) -> Option<Vec<&[u8]>> {
    let (_, index) = members(archive).find(|(name, _)| *name == b"/")?;
    let (count, rest) = index.split_first_chunk()?;
    let names = rest.get(4 * u32::from_be_bytes(*count) as usize..)?;
    Some(names.split(|byte| *byte == 0).collect())
}
