//! Outputs. A file appears under its name only when it is whole: it is written beside it and renamed.
use crate::error::{at, at_path, failed, usage, Result};
use std::fs::{self, File};
use std::io::{self, BufWriter, Write};
use std::os::unix::fs::MetadataExt;
use std::path::{Path, PathBuf};

pub struct Output {
    /// The name by which errors speak of it.
    name: String,
    to: Box<dyn Write>,
    file: Option<File>,
    /// Beside the name, and the name. None where bytes go to where they belong at once: standard output, a device, a pipe.
    rename: Option<(PathBuf, PathBuf)>,
}

impl Output {
    /// `-` is standard output.
    pub fn create(path: &Path) -> Result<Self> {
        let name = path.display().to_string();
        if path == Path::new("-") {
            return Ok(Output { name: "standard output".into(), to: Box::new(io::stdout()), file: None, rename: None });
        }
        let whole = match fs::metadata(path) {
            Ok(found) if found.is_dir() => return usage(format!("{name}: is a folder")),
            Ok(found) if !found.is_file() => {
                let file = File::options().write(true).open(path).map_err(at_path(path))?;
                return Ok(Output { name, to: Box::new(file), file: None, rename: None });
            }
            // Through a link, so that the link stays.
            Ok(_) => fs::canonicalize(path).map_err(at_path(path))?,
            Err(_) => path.to_path_buf(),
        };
        let Some(last) = whole.file_name() else { return usage(format!("{name}: is no file's name")) };
        let mut beside = last.to_os_string();
        beside.push(format!(".part-{}", std::process::id()));
        let beside = whole.with_file_name(beside);
        let file = File::create(&beside).map_err(at_path(&beside))?;
        let to = file.try_clone().map_err(at_path(&beside))?;
        Ok(Output { name, to: Box::new(BufWriter::with_capacity(1 << 20, to)), file: Some(file), rename: Some((beside, whole)) })
    }

    pub fn write(&mut self, bytes: &[u8]) -> Result<()> {
        self.to.write_all(bytes).map_err(at(&self.name))
    }

    /// What was written so far reaches its reader.
    pub fn flush(&mut self) -> Result<()> {
        self.to.flush().map_err(at(&self.name))
    }

    /// Everything is written: the file gets its name.
    pub fn finish(mut self) -> Result<()> {
        self.flush()?;
        if let Some(file) = &self.file {
            file.sync_all().map_err(at(&self.name))?;
        }
        if let Some((beside, whole)) = &self.rename {
            fs::rename(beside, whole).map_err(at(&self.name))?;
        }
        self.rename = None;
        Ok(())
    }
}

impl Drop for Output {
    fn drop(&mut self) {
        if let Some((beside, _)) = &self.rename {
            let _ = fs::remove_file(beside);
        }
    }
}

/// A whole file at once.
pub fn write(path: &Path, bytes: &[u8]) -> Result<()> {
    let mut output = Output::create(path)?;
    output.write(bytes)?;
    output.finish()
}

/// Text to standard output.
pub fn print(text: &str) -> Result<()> {
    let mut to = io::stdout();
    to.write_all(text.as_bytes()).and_then(|()| to.flush()).map_err(at("standard output"))
}

// What a path leads to: a file by its number, else the name it would get.
#[derive(PartialEq)]
enum Place {
    File(u64, u64),
    Name(PathBuf),
}

fn place(path: &Path) -> Option<Place> {
    if path == Path::new("-") {
        return None;
    }
    match fs::metadata(path) {
        Ok(found) if found.is_file() => Some(Place::File(found.dev(), found.ino())),
        Ok(_) => None,
        Err(_) => {
            let folder = match path.parent() {
                Some(folder) if folder != Path::new("") => folder,
                _ => Path::new("."),
            };
            Some(Place::Name(fs::canonicalize(folder).ok()?.join(path.file_name()?)))
        }
    }
}

/// Refuses an output that is an input, by whatever name, and two outputs that are one.
pub fn apart(inputs: &[&Path], outputs: &[&Path]) -> Result<()> {
    for (i, output) in outputs.iter().enumerate() {
        let Some(to) = place(output) else { continue };
        for input in inputs {
            if place(input).as_ref() == Some(&to) {
                return failed(format!("{}: is the input {} too; name another output", output.display(), input.display()));
            }
        }
        for other in &outputs[..i] {
            if place(other).as_ref() == Some(&to) {
                return failed(format!("{}: is the output {} too; name another", output.display(), other.display()));
            }
        }
    }
    Ok(())
}
