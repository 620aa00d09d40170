//! Input and output. An input is read whole and once; an output is written whole, or not at all.

use crate::failure::Failure;
use crate::shown::shown;
use crate::sys;
use crate::words::{Call, Opt};
use std::ffi::CString;
use std::fs::{self, File, Metadata, OpenOptions};
use std::io::{self, IsTerminal, Read, Seek, Write};
use std::os::fd::AsFd;
use std::os::unix::ffi::OsStrExt;
use std::os::unix::fs::{FileExt, FileTypeExt, MetadataExt, fchown};
use std::path::{Path, PathBuf};

/// The longest text that is read, in bytes: every list full, and every name as long as can be.
pub const TEXT_BYTES: usize = 16 << 20;

/// So many bytes are read at once: a table in one piece.
const AT_ONCE: usize = 1 << 16;

/// `-o OUT`
pub const OUT: Opt = Opt {
    name: "-o",
    value: Some("OUT"),
    about: "writes OUT if all went well, and leaves it as it was otherwise\n\
        The section OUTPUT FILES says how.",
};

/// An input by its name, or standard input.
#[derive(Clone, Copy, Debug)]
pub struct Input<'c> {
    path: Option<&'c Path>,
    out: Option<&'c Path>,
    no_input: bool,
}

impl<'c> Input<'c> {
    /// The file that a word of the call names, else standard input.
    pub fn of(call: &'c Call, path: Option<&'c Path>) -> Input<'c> {
        Input {
            path,
            out: call.path(&OUT),
            no_input: call.no_input,
        }
    }

    /// The file of this name.
    pub fn named(path: &'c Path) -> Input<'c> {
        Input {
            path: Some(path),
            out: None,
            no_input: false,
        }
    }

    /// Its name, as it is shown.
    pub fn shown(self) -> String {
        self.path.map_or("standard input".to_string(), shown)
    }

    /// Its bytes, up to a greatest number of them. An empty standard input is none: mostly it is what a command that failed left, and a file of no
    /// bytes would be an untouched draft.
    pub fn take(self, most: usize) -> Result<Vec<u8>, Failure> {
        let bytes = self.take_or_nothing(most)?;
        if self.path.is_none() && bytes.is_empty() {
            return Err(Failure::Failed(
                "standard input is empty; an untouched draft, which has no bytes, is read by its name".to_string(),
            ));
        }
        Ok(bytes)
    }

    /// The same, where standard input may be empty.
    pub fn take_or_nothing(self, most: usize) -> Result<Vec<u8>, Failure> {
        let mut file = self.open()?;
        self.need_other(&file)?;
        read_whole(&mut file, most).map_err(|error| self.not_read(error))
    }

    /// Not the file that is written: to put another one in its place would take away what was read, with the
    /// names that a file does not hold.
    fn need_other(self, file: &File) -> Result<(), Failure> {
        let read = file.metadata().map_err(|error| self.not_read(error))?;
        let is_out = match self.out {
            Some(out) => found(out)
                .map_err(|error| not_written(out, error))?
                .is_some_and(|data| is_same(&read, &data)),
            None => false,
        };
        if is_out || sys::is_file_due() && is_output(&read)? {
            return Err(Failure::Failed("input and output are one file".to_string()));
        }
        Ok(())
    }

    fn not_read(self, error: io::Error) -> Failure {
        Failure::Failed(format!("{} could not be read: {error}", self.shown()))
    }

    fn open(self) -> Result<File, Failure> {
        let failed = |error| self.not_read(error);
        match self.path {
            Some(path) => File::open(path).map_err(failed),
            None if self.no_input => Err(Failure::Failed("standard input is closed".to_string())),
            None if io::stdin().is_terminal() => Err(Failure::Wrong(
                "no file is named, and standard input is a terminal".to_string(),
            )),
            None => io::stdin()
                .as_fd()
                .try_clone_to_owned()
                .map(File::from)
                .map_err(failed),
        }
    }
}

/// Whether a file on a disk is standard output too. The shell has emptied it then, or what is written goes into what is read.
fn is_output(file: &Metadata) -> Result<bool, Failure> {
    let output = sys::output().map_err(|error| {
        Failure::Failed(format!("standard output could not be looked at: {error}"))
    })?;
    Ok(is_same(file, &output))
}

/// Whether both are one file on a disk.
fn is_same(file: &Metadata, other: &Metadata) -> bool {
    file.is_file() && (file.dev(), file.ino()) == (other.dev(), other.ino())
}

/// Whether both names are those of one file on a disk. What cannot be looked at is said where it is read.
pub fn is_one_file(path: &Path, other: &Path) -> bool {
    let of_both = (fs::metadata(path), fs::metadata(other));
    matches!(of_both, (Ok(file), Ok(other)) if is_same(&file, &other))
}

/// A file, or nothing: a pipe could wait for ever, and what a device gives is nobody's table.
pub fn need_file(path: &Path) -> Result<(), Failure> {
    match fs::metadata(path) {
        Ok(data) if !data.is_file() => {
            let why = io::Error::other(NO_FILE);
            Err(Input::named(path).not_read(why))
        }
        _ => Ok(()), // what cannot be looked at is said where it is read
    }
}

/// What a name stands for, behind all links; nothing where there is nothing. Any other error stays one: the
/// kernel may refuse to follow a link.
fn found(path: &Path) -> io::Result<Option<Metadata>> {
    match fs::metadata(path) {
        Ok(data) => Ok(Some(data)),
        Err(error) if error.kind() == io::ErrorKind::NotFound && path != Path::new("") => Ok(None),
        Err(error) => Err(error),
    }
}

fn not_written(path: &Path, error: io::Error) -> Failure {
    Failure::Failed(format!("{} could not be written: {error}", shown(path)))
}

/// The bytes of an open file. A file on a disk is read twice, and looked at before and after: what was changed meanwhile is an error, since blocks of
/// an old and of a new file beside each other may pass for a file that nobody made.
pub fn read_whole(file: &mut File, most: usize) -> io::Result<Vec<u8>> {
    let before = file.metadata()?;
    if before.is_dir() {
        return Err(io::ErrorKind::IsADirectory.into());
    }
    let start = match before.is_file() {
        true => file.stream_position()?,
        false => 0,
    };
    let mut bytes = Vec::with_capacity(most.min(AT_ONCE));
    file.take(most as u64).read_to_end(&mut bytes)?;
    if before.is_file() && !is_still(file, start, &bytes, &before, most)? {
        return Err(io::Error::other("it was changed while it was read"));
    }
    Ok(bytes)
}

/// Whether the file has the same bytes from its start on, and none behind them where there was room for more.
fn is_still(
    file: &File,
    start: u64,
    bytes: &[u8],
    before: &Metadata,
    most: usize,
) -> io::Result<bool> {
    let room = bytes.len() + usize::from(bytes.len() < most);
    let mut piece = vec![0; AT_ONCE];
    let mut length = 0;
    while length < room {
        let piece = &mut piece[..AT_ONCE.min(room - length)];
        match file.read_at(piece, start + length as u64) {
            Ok(0) => break,
            Ok(count) if bytes[length..].starts_with(&piece[..count]) => length += count,
            Ok(_) => return Ok(false),
            Err(error) if error.kind() == io::ErrorKind::Interrupted => {}
            Err(error) => return Err(error),
        }
    }
    let seen = |data: &Metadata| {
        (
            data.len(),
            data.mtime(),
            data.mtime_nsec(),
            data.ctime(),
            data.ctime_nsec(),
        )
    };
    Ok(length == bytes.len() && seen(before) == seen(&file.metadata()?))
}

/// Writes all bytes to the file that `-o` names, or to standard output.
pub fn put(call: &Call, bytes: &[u8]) -> Result<(), Failure> {
    match call.path(&OUT) {
        None => print(bytes),
        Some(path) => replace(path, bytes),
    }
}

/// The same of a file that is no text.
pub fn put_file(call: &Call, bytes: &[u8]) -> Result<(), Failure> {
    if call.path(&OUT).is_none() && io::stdout().is_terminal() {
        return Err(Failure::Failed(
            "a file is bytes and not for a terminal: -o OUT".to_string(),
        ));
    }
    put(call, bytes)
}

/// Prints on standard output.
pub fn print(bytes: &[u8]) -> Result<(), Failure> {
    sys::print(bytes)
        .map_err(|error| Failure::Failed(format!("standard output could not be written: {error}")))
}

/// Says something on standard error. Where that cannot be written there is nobody to say it to.
pub fn say(line: &str) {
    let _ = io::stderr().write_all(line.as_bytes());
}

/// A file, or a name that is free: bytes that go into a pipe or a device are released to nobody knows whom.
pub fn need_place(path: &Path) -> Result<(), Failure> {
    match Place::of(path) {
        Ok(Place::File { .. }) => Ok(()),
        Ok(Place::Stream(_)) => Err(not_written(path, io::Error::other(NO_FILE))),
        Err(error) => Err(not_written(path, error)),
    }
}

/// Not the file that standard output goes to: another file in its place would take away what is printed. Where the shell has emptied it, it gets a
/// line, since a file of no bytes is a draft.
pub fn need_apart(path: &Path) -> Result<(), Failure> {
    let Some(data) = found(path).map_err(|error| not_written(path, error))? else {
        return Ok(());
    };
    if !is_output(&data)? {
        return Ok(());
    }
    if data.len() == 0 {
        print(b"failed\n")?;
    }
    let why = io::Error::other("standard output goes there too");
    Err(not_written(path, why))
}

/// Puts a whole file in the place of another, or leaves that as it was: half a file, or one of no bytes, could be taken for a table.
pub fn replace(path: &Path, bytes: &[u8]) -> Result<(), Failure> {
    replace_after(path, bytes, || Ok(()))
}

/// The same, where something must be done before: it comes when only the new name is wanting, and where it fails the file is not put there.
pub fn replace_after(
    path: &Path,
    bytes: &[u8],
    last: impl FnOnce() -> Result<(), Failure>,
) -> Result<(), Failure> {
    let failed = |error| not_written(path, error);
    match Place::of(path).map_err(failed)? {
        Place::Stream(path) => {
            let mut stream = OpenOptions::new().write(true).open(path).map_err(failed)?;
            last()?;
            stream.write_all(bytes).map_err(failed)
        }
        Place::File { path, old } => {
            let part = Part::written(&path, bytes, old).map_err(failed)?;
            last()?;
            part.rename(&path).map_err(failed)
        }
    }
}

/// Where bytes go.
enum Place {
    /// A pipe or a device.
    Stream(PathBuf),
    /// A file, or a name that is free, behind all links; and what is there now.
    File {
        path: PathBuf,
        old: Option<Metadata>,
    },
}

const NO_FILE: &str = "it is no file";

impl Place {
    fn of(path: &Path) -> io::Result<Place> {
        need_name(path)?;
        let Some(old) = found(path)? else {
            return Place::free(path);
        };
        let kind = old.file_type();
        if kind.is_fifo() || kind.is_char_device() {
            return Ok(Place::Stream(path.to_path_buf()));
        }
        need_replaceable(&old)?;
        let path = behind_links(path, &old)?;
        match sys::is_mounted_on(&path)? {
            true => Err(io::Error::other("a file system is mounted on it")),
            false => Ok(Place::File {
                path,
                old: Some(old),
            }),
        }
    }

    /// A name that is free, in a folder that is there. A link to nothing is none: what it should lead to, a
    /// disk that is not there for one, would stay without the file.
    fn free(path: &Path) -> io::Result<Place> {
        match fs::symlink_metadata(path) {
            Ok(_) => return Err(io::Error::other("it is a link to nothing")),
            Err(error) if error.kind() != io::ErrorKind::NotFound => return Err(error),
            Err(_) => {}
        }
        fs::metadata(folder_of(path))?;
        let path = path.to_path_buf();
        Ok(Place::File { path, old: None })
    }
}

/// Not a name that only a folder can have: that would come out once all is written.
fn need_name(path: &Path) -> io::Result<()> {
    let bytes = path.as_os_str().as_bytes();
    match bytes.rsplit(|&byte| byte == b'/').next() {
        Some(b"") if !bytes.is_empty() => Err(io::Error::other("its name ends with a slash")),
        Some(b"." | b"..") => Err(io::Error::other(NO_FILE)),
        _ => Ok(()),
    }
}

/// A file that may be replaced, by the one name that it has: under a second one the old file would stay.
fn need_replaceable(old: &Metadata) -> io::Result<()> {
    let why = match old {
        _ if !old.is_file() => NO_FILE,
        _ if is_protected(old) => "it is write-protected",
        _ if old.nlink() > 1 => "it has a second name (a hard link), which would keep the old file",
        _ => return Ok(()),
    };
    Err(io::Error::other(why))
}

/// Whether its owner may not write it. The folder alone would let it be replaced, but who protects a released file means it to stay.
fn is_protected(file: &Metadata) -> bool {
    const OWNER_WRITES: u32 = 0o200;
    file.mode() & OWNER_WRITES == 0
}

/// A file that is written whole, and has not its name yet. Where it does not get it, it is taken away.
struct Part {
    at: PathBuf,
}

impl Part {
    fn written(path: &Path, bytes: &[u8], old: Option<Metadata>) -> io::Result<Part> {
        let (at, mut file) = new_part(folder_of(path))?;
        let part = Part { at };
        if let Some(old) = old {
            keep_owner(&file, &old)?;
        }
        file.write_all(bytes)?;
        file.sync_all()?;
        Ok(part)
    }

    fn rename(self, path: &Path) -> io::Result<()> {
        {
            let _held = sys::Held::new();
            fs::rename(&self.at, path)?;
            sys::set_part(None);
            std::mem::forget(self); // there is nothing to take away
        }
        // The new name too, as far as the file system can.
        let _ = File::open(folder_of(path)).and_then(|folder| folder.sync_all());
        Ok(())
    }
}

impl Drop for Part {
    fn drop(&mut self) {
        let _ = fs::remove_file(&self.at);
        sys::set_part(None);
    }
}

fn folder_of(path: &Path) -> &Path {
    match path.parent() {
        Some(folder) if !folder.as_os_str().is_empty() => folder,
        _ => Path::new("."),
    }
}

/// Who owns the file, and who may read it, stays the same, and is so before there is anything to read.
fn keep_owner(file: &File, old: &Metadata) -> io::Result<()> {
    let new = file.metadata()?;
    if (new.uid(), new.gid()) != (old.uid(), old.gid()) {
        fchown(file, Some(old.uid()), Some(old.gid())).map_err(|error| {
            let why = format!("it would not keep its owner and group: {error}");
            io::Error::other(why)
        })?;
    }
    file.set_permissions(old.permissions())
}

/// The name of a file behind all links. It is made of what stands in the links, by which one may come where
/// the kernel would not follow: so it must be the same file.
fn behind_links(path: &Path, file: &Metadata) -> io::Result<PathBuf> {
    let behind = fs::canonicalize(path)?;
    match is_same(&fs::metadata(&behind)?, file) {
        true => Ok(behind),
        false => Err(io::Error::other("it was changed meanwhile")),
    }
}

/// A new file in a folder, which a signal takes away.
fn new_part(folder: &Path) -> io::Result<(PathBuf, File)> {
    const TRIES: usize = 100; // names that a killed program may have left
    let _held = sys::Held::new();
    let mut left = io::ErrorKind::AlreadyExists.into();
    for i in 0..TRIES {
        let part = folder.join(format!(".shuntberry-{}-{i}.part", std::process::id()));
        match OpenOptions::new().write(true).create_new(true).open(&part) {
            Ok(file) => {
                sys::set_part(CString::new(part.as_os_str().as_bytes()).ok());
                return Ok((part, file));
            }
            Err(error) if error.kind() == io::ErrorKind::AlreadyExists => left = error,
            Err(error) => return Err(error),
        }
    }
    Err(left)
}
