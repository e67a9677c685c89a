//! Finds the proved library and hands it to the linker: the archive that a variable names, or the
//! repository's own where no source is newer, or the one that is installed, or else one that is
//! proved and built here. It writes to the build's own folder, to a cache and to a folder for
//! temporary files, never among the repository's sources, which another build may be using.

use std::collections::hash_map::DefaultHasher;
use std::env;
use std::error::Error;
use std::fs;
use std::hash::Hasher;
use std::io::{self, Write};
use std::path::{Path, PathBuf};
use std::process::{self, Command};
use std::time::{Instant, SystemTime};

type Found<T> = Result<T, Box<dyn Error>>;

/// Names an archive that is there already.
const NAMED: &str = "JUNIPERREEF_LIBRARY";

/// The crate of the repository that has the functions for C, and what `rt lib` makes of it.
const C_CRATE: &str = "crates/exports_c";
const C_ARCHIVE: &str = "out/libexports_c.a";

/// The archive's name in this crate: its own, so that no other library is taken for it.
const LINKED: &str = "juniperreef_exports";

fn main() {
    for variable in [NAMED, "PKG_CONFIG", "PKG_CONFIG_PATH", "PKG_CONFIG_LIBDIR"] {
        println!("cargo::rerun-if-env-changed={variable}");
    }
    println!("cargo::rerun-if-changed=build.rs");
    if let Err(why) = archive().and_then(|found| link(&found)) {
        println!("cargo::error={why}");
    }
}

fn archive() -> Found<PathBuf> {
    suits()?;
    if let Some(file) = env::var_os(NAMED) {
        return named(file.into());
    }
    let sources = Sources::beside()?;
    let own = sources.as_ref().and_then(Sources::archive);
    if let Some(file) = own.or_else(|| installed(sources.as_ref())) {
        println!("cargo::rerun-if-changed={}", file.display());
        return Ok(file);
    }
    match sources {
        Some(sources) => sources.proved(),
        None => Err(missing("this crate stands outside its repository")),
    }
}

/// The archive holds ELF code for one processor, and calls memory functions by Linux's names.
fn suits() -> Found<()> {
    let of = |what: &str| env::var(format!("CARGO_CFG_TARGET_{what}"));
    let (system, processor) = (of("OS")?, of("ARCH")?);
    if (system.as_str(), processor.as_str(), of("POINTER_WIDTH")?.as_str())
        != ("linux", "x86_64", "64")
    {
        let target = env::var("TARGET")?;
        let why = "the library is made for Linux on x86-64, with pointers of 64 bits";
        return Err(format!("{why}; this build is for {target} ({system}, {processor})").into());
    }
    Ok(())
}

fn named(file: PathBuf) -> Found<PathBuf> {
    if !file.is_file() {
        return Err(format!("{NAMED} names {}, and no file is there", file.display()).into());
    }
    println!("cargo::rerun-if-changed={}", file.display());
    Ok(file)
}

/// The archive that scripts/install put somewhere, of this release. The command pkg-config knows the
/// folders that its file may be in; where it is missing, the variable names the archive.
fn installed(sources: Option<&Sources>) -> Option<PathBuf> {
    let asked = |word: &str| {
        let command = env::var_os("PKG_CONFIG").unwrap_or("pkg-config".into());
        let said = Command::new(command).args([word, "juniperreef"]).output().ok()?;
        said.status.success().then(|| String::from_utf8_lossy(&said.stdout).trim().to_string())
    };
    let file = Path::new(&asked("--variable=libdir")?).join("libjuniperreef.a");
    let (version, own) = (asked("--modversion")?, env!("CARGO_PKG_VERSION"));
    if !file.is_file() {
        return None;
    }
    if version != own {
        warn(&format!("{} is of {version}, this crate of {own}: not taken", file.display()));
        return None;
    }
    if let Some(newer) = sources.filter(|s| changed(&file).is_none_or(|at| at < s.newest.0)) {
        let (file, source) = (file.display(), newer.newest.1.display());
        warn(&format!("links {file}, which is older than {source}; {NAMED} names another one"));
    }
    Some(file)
}

/// The library's own source, in the repository that this crate stands in.
struct Sources {
    top: PathBuf,
    /// Every file that a proof reads, by its place in the repository.
    files: Vec<PathBuf>,
    /// When something changed last, and what. A folder changes as a file of it goes.
    newest: (SystemTime, PathBuf),
}

impl Sources {
    fn beside() -> Found<Option<Self>> {
        let top = PathBuf::from(env::var("CARGO_MANIFEST_DIR")?).join("../..");
        if !top.join(C_CRATE).is_dir() || !top.join("crates.txt").is_file() {
            return Ok(None);
        }
        let top = top.canonicalize()?;
        let newest = (SystemTime::UNIX_EPOCH, top.join("crates"));
        let mut sources = Self { top, files: Vec::new(), newest };
        let mut parts = vec![PathBuf::from("crates.txt")];
        for listed in fs::read_dir(sources.top.join("crates"))? {
            let folder = Path::new("crates").join(listed?.file_name());
            parts.extend(["src", "specs", "proofs"].map(|part| folder.join(part)));
        }
        for part in parts {
            let whole = sources.top.join(&part);
            if whole.exists() {
                println!("cargo::rerun-if-changed={}", whole.display());
                sources.gather(part)?;
            }
        }
        sources.files.sort();
        Ok(Some(sources))
    }

    fn gather(&mut self, part: PathBuf) -> io::Result<()> {
        let whole = self.top.join(&part);
        self.newest =
            self.newest.clone().max((fs::metadata(&whole)?.modified()?, whole.to_path_buf()));
        if whole.is_dir() {
            for inner in fs::read_dir(whole)? {
                self.gather(part.join(inner?.file_name()))?;
            }
        } else {
            self.files.push(part);
        }
        Ok(())
    }

    /// The repository's own archive, where it is newer than every source.
    fn archive(&self) -> Option<PathBuf> {
        let file = self.top.join(C_CRATE).join(C_ARCHIVE);
        changed(&file).filter(|at| *at >= self.newest.0).map(|_| file)
    }

    /// An archive that is proved and built from a copy of the sources, and kept in the cache for builds
    /// of other profiles and folders. The copy lies outside the build's own folder, which may be in the
    /// repository: there `rt` refuses sources that stand in no crate of its own.
    fn proved(&self) -> Found<PathBuf> {
        let kit = Command::new("rt").arg("version").output();
        let kit = kit.map_err(|why| missing(&format!("`rt` can't be run here ({why})")))?;
        let key = self.key(&kit.stdout)?;
        let kept = cache().map(|folder| folder.join(key).join("libexports_c.a"));
        if let Some(file) = kept.as_ref().filter(|file| file.is_file()) {
            return Ok(file.clone());
        }
        let place = env::temp_dir().join(format!("juniperreef-{}", process::id()));
        // What a build that was ended left there is no part of this one.
        if place.exists() {
            fs::remove_dir_all(&place)?;
        }
        let (began, folder, top) = (Instant::now(), place.display(), self.top.display());
        announce(&format!(
            "no archive of the library is here: `rt lib` proves and builds one in {folder}, which \
             takes long from nothing; run in {top}/{C_CRATE} it makes one for all builds"
        ));
        let file = PathBuf::from(env::var("OUT_DIR")?).join("libexports_c.a");
        let made = self.proved_in(&place, &file);
        let cleared = fs::remove_dir_all(&place);
        made?;
        cleared?;
        warn(&format!("proved and built {} in {} s", file.display(), began.elapsed().as_secs()));
        if let Some(kept) = kept {
            match keep(&file, &kept) {
                Ok(()) => warn(&format!("later builds take it from {}", kept.display())),
                Err(why) => warn(&format!("{} can't be written: {why}", kept.display())),
            }
        }
        Ok(file)
    }

    fn proved_in(&self, place: &Path, file: &Path) -> Found<()> {
        self.copy_to(place)?;
        let crate_of_c = place.join(C_CRATE);
        let made = Command::new("rt").arg("lib").current_dir(&crate_of_c).output()?;
        if !made.status.success() {
            show_end(&made.stdout);
            show_end(&made.stderr);
            return Err("`rt lib` did not make the library; it said the above".into());
        }
        fs::copy(crate_of_c.join(C_ARCHIVE), file)?;
        Ok(())
    }

    /// What an archive depends on: the kit and every source. It chooses among archives that were all
    /// proved here, so it need not withstand anyone.
    fn key(&self, kit: &[u8]) -> io::Result<String> {
        let mut hasher = DefaultHasher::new();
        let mut take = |bytes: &[u8]| {
            hasher.write_usize(bytes.len());
            hasher.write(bytes);
        };
        take(kit);
        for file in &self.files {
            take(file.as_os_str().as_encoded_bytes());
            take(&fs::read(self.top.join(file))?);
        }
        Ok(format!("{:016x}", hasher.finish()))
    }

    fn copy_to(&self, place: &Path) -> Found<()> {
        fs::create_dir_all(place)?;
        for file in &self.files {
            let to = place.join(file);
            fs::create_dir_all(to.parent().ok_or("a file in no folder")?)?;
            fs::copy(self.top.join(file), to)?;
        }
        Ok(())
    }
}

/// When a file changed last, if it is there.
fn changed(file: &Path) -> Option<SystemTime> {
    fs::metadata(file).and_then(|known| known.modified()).ok()
}

/// The folder that keeps archives for other builds of this user.
fn cache() -> Option<PathBuf> {
    let set = |name: &str| env::var_os(name).map(PathBuf::from).filter(|path| path.is_absolute());
    let folder = set("XDG_CACHE_HOME").or_else(|| Some(set("HOME")?.join(".cache")))?;
    Some(folder.join("juniperreef"))
}

/// Puts a file there whole, whoever else does the same.
fn keep(file: &Path, kept: &Path) -> io::Result<()> {
    let part = kept.with_extension(format!("{}.part", process::id()));
    fs::create_dir_all(kept.parent().unwrap_or(kept))?;
    fs::copy(file, &part)?;
    fs::rename(part, kept)
}

fn warn(what: &str) {
    println!("cargo::warning={what}");
}

/// Says what takes minutes. Cargo shows a warning once the build script has ended, so the terminal,
/// where there is one, is told at once.
fn announce(what: &str) {
    warn(what);
    if let Ok(mut terminal) = fs::OpenOptions::new().write(true).open("/dev/tty") {
        let _ = writeln!(terminal, "\njuniperreef: {what}");
    }
}

/// The last lines of what a command said. Cargo shows a build's own output only as errors.
fn show_end(said: &[u8]) {
    let said = String::from_utf8_lossy(said);
    let lines: Vec<&str> = said.lines().collect();
    for line in &lines[lines.len().saturating_sub(20)..] {
        println!("cargo::error=rt: {line}");
    }
}

fn missing(what: &str) -> Box<dyn Error> {
    let ways = "name one by its full path in the variable";
    let others = "install one (scripts/install) where pkg-config finds it, or install the Rattle kit \
                  and build inside the repository";
    format!("no archive of the library is here: {what}; {ways} {NAMED}, {others}").into()
}

/// The name that an archive of this crate's layout has, as src/ffi.rs declares it.
fn layout() -> Found<&'static str> {
    let (_, rest) = include_str!("src/ffi.rs").split_once("fn jr_layout_").ok_or("no layout")?;
    let name = rest.split_once('(').ok_or("no layout")?.0;
    Ok(name)
}

/// A copy, so that what is linked stays what this build found.
fn link(archive: &Path) -> Found<()> {
    let unread = |why: io::Error| format!("{} can't be read: {why}", archive.display());
    let (bytes, name) = (fs::read(archive).map_err(unread)?, format!("jr_layout_{}\0", layout()?));
    if !bytes.windows(name.len()).any(|part| part == name.as_bytes()) {
        let (file, name) = (archive.display(), name.trim_end_matches('\0'));
        return Err(format!("{file} is of another layout than this crate: it has no {name}").into());
    }
    let out = PathBuf::from(env::var("OUT_DIR")?);
    fs::write(out.join(format!("lib{LINKED}.a")), bytes)?;
    println!("cargo::rustc-link-search=native={}", out.display());
    println!("cargo::rustc-link-lib=static={LINKED}");
    Ok(())
}
