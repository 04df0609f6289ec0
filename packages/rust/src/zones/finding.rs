//! Zones by their names, and that of the machine.

use std::env::var_os;
use std::ffi::OsStr;
#[cfg(feature = "local-offset")]
use std::ffi::OsString;
use std::fs::{File, read_link, read_to_string};
use std::io::{ErrorKind, Read as _};
use std::path::{Path, PathBuf};
use std::string::String;
#[cfg(feature = "local-offset")]
use std::sync::{Arc, Mutex, PoisonError};
#[cfg(feature = "local-offset")]
use std::time::SystemTime;
use std::vec;
use std::vec::Vec;

use super::{Zone, ZoneRefusal};
use crate::proved::zone_files::is_zone_name;

/// The folders of zones where `TZDIR` names none, as Python's `zoneinfo` has them.
const FOLDERS: [&str; 4] =
    ["/usr/share/zoneinfo", "/usr/lib/zoneinfo", "/usr/share/lib/zoneinfo", "/etc/zoneinfo"];

/// The file of the machine's zone.
const LOCAL: &str = "/etc/localtime";

/// The most bytes that are read of a file.
const MOST: u64 = 1 << 20;

/// The folders that may have zones: `TZDIR`, if it is there, and else those of the system.
fn folders() -> Vec<PathBuf> {
    match var_os("TZDIR") {
        Some(folder) if !folder.is_empty() => vec![folder.into()],
        _ => FOLDERS.map(PathBuf::from).to_vec(),
    }
}

/// The bytes of a file, or `None` where there is no such file.
fn bytes_of(path: &Path) -> Result<Option<Vec<u8>>, ZoneRefusal> {
    // What is no file of bytes, such as a folder or a device, is no zone.
    match path.metadata() {
        Ok(found) if found.is_file() => {}
        Ok(_) => return Ok(None),
        Err(error) if matches!(error.kind(), ErrorKind::NotFound | ErrorKind::NotADirectory) => {
            return Ok(None);
        }
        Err(error) => return Err(ZoneRefusal::Unreadable(error.kind())),
    }
    let mut bytes = Vec::new();
    File::open(path)
        .and_then(|file| file.take(MOST + 1).read_to_end(&mut bytes))
        .map_err(|error| ZoneRefusal::Unreadable(error.kind()))?;
    if bytes.len() as u64 > MOST {
        return Err(ZoneRefusal::TooLong);
    }
    Ok(Some(bytes))
}

/// The name of the zone to which a link leads, if it leads into a folder of zones.
fn name_of_link(link: &Path) -> Option<String> {
    let target = link.parent()?.join(read_link(link).ok()?);
    let name = folders().iter().find_map(|folder| target.strip_prefix(folder).ok())?.to_str()?;
    is_zone_name(name.as_bytes()).then(|| name.into())
}

/// Whose file a zone is read from.
#[derive(Clone, Copy, Debug, PartialEq, Eq)]
pub enum ZoneSource {
    /// The machine's: it is updated with the system.
    Machine,
    /// The caller's, such as that of the package `muxandu-tzdata`, since the machine has none.
    Given,
}

impl Zone {
    /// Finds a zone by its name, such as `Europe/Berlin`, in the folder `TZDIR`, or else in
    /// `/usr/share/zoneinfo`. Names that are links to others are found as well.
    ///
    /// ```no_run
    /// use muxandu::macros::datetime;
    /// use muxandu::zones::Zone;
    ///
    /// let apia = Zone::named("Pacific/Apia")?;
    /// println!("{}", datetime!(2011-12-30 10:00 UTC).to_zone(&apia));
    /// # Ok::<(), muxandu::zones::ZoneRefusal>(())
    /// ```
    ///
    /// # Errors
    ///
    /// [`ZoneRefusal::Name`] for a text that can be no name: no file is touched then.
    /// [`ZoneRefusal::Unknown`] where no folder has the file. [`ZoneRefusal::Unreadable`] and
    /// [`ZoneRefusal::TooLong`] for a file that is not read, and the errors of
    /// [`Zone::from_tzif`].
    pub fn named(name: &str) -> Result<Zone, ZoneRefusal> {
        if !is_zone_name(name.as_bytes()) {
            return Err(ZoneRefusal::Name);
        }
        for folder in folders() {
            if let Some(bytes) = bytes_of(&folder.join(name))? {
                return Ok(Zone { name: Some(name.into()), ..Zone::from_tzif(&bytes)? });
            }
        }
        Err(ZoneRefusal::Unknown)
    }

    /// Finds a zone by its name as [`Zone::named`] does. Where the machine has none of this name,
    /// it reads the file that `files` returns, such as that of the package `muxandu-tzdata`. The
    /// second part of the answer tells whose file it is.
    ///
    /// ```
    /// use muxandu::zones::{Zone, ZoneRefusal};
    ///
    /// let refused = Zone::named_or("Mars/Phobos", |_| None).unwrap_err();
    /// assert_eq!(refused, ZoneRefusal::Unknown);
    /// ```
    ///
    /// # Errors
    ///
    /// Those of [`Zone::named`], and [`ZoneRefusal::Unknown`] where `files` has none either.
    pub fn named_or<'a>(
        name: &str,
        files: impl FnOnce(&str) -> Option<&'a [u8]>,
    ) -> Result<(Zone, ZoneSource), ZoneRefusal> {
        match Zone::named(name) {
            Err(ZoneRefusal::Unknown) => {
                let bytes = files(name).ok_or(ZoneRefusal::Unknown)?;
                let zone = Zone { name: Some(name.into()), ..Zone::from_tzif(bytes)? };
                Ok((zone, ZoneSource::Given))
            }
            found => Ok((found?, ZoneSource::Machine)),
        }
    }

    /// The zone of the machine: that of the variable `TZ`, which is a name, perhaps after a colon,
    /// or a rule. An empty `TZ` is UTC. Without `TZ` it is that of `/etc/localtime`; Unix without
    /// that file has UTC.
    ///
    /// ```
    /// use muxandu::OffsetDateTime;
    /// use muxandu::zones::Zone;
    ///
    /// let zone = Zone::local()?;
    /// println!("{}", OffsetDateTime::now_utc().to_zone(&zone));
    /// # Ok::<(), muxandu::zones::ZoneRefusal>(())
    /// ```
    ///
    /// # Errors
    ///
    /// Those of [`Zone::named`], where `TZ` is neither the name of a zone nor a rule, and where the
    /// file is at fault. [`ZoneRefusal::Rule`] where `TZ` can be no name and is no rule.
    /// [`ZoneRefusal::Unknown`] on other systems than Unix without `TZ`.
    pub fn local() -> Result<Zone, ZoneRefusal> {
        match var_os("TZ") {
            Some(text) => zone_of_variable(&text),
            None => zone_of_link(Path::new(LOCAL)),
        }
    }
}

/// The zone of the text of `TZ`.
fn zone_of_variable(text: &OsStr) -> Result<Zone, ZoneRefusal> {
    let text = text.to_str().ok_or(ZoneRefusal::Name)?;
    if text.is_empty() {
        return Ok(Zone::utc());
    }
    if let Some(name) = text.strip_prefix(':') {
        return Zone::named(name);
    }
    match Zone::named(text) {
        Err(ZoneRefusal::Name) => Zone::from_tz(text),
        Err(ZoneRefusal::Unknown) => Zone::from_tz(text).map_err(|_| ZoneRefusal::Unknown),
        found => found,
    }
}

/// The zone of a file that may be a link to another, or UTC where there is none.
fn zone_of_link(path: &Path) -> Result<Zone, ZoneRefusal> {
    match bytes_of(path)? {
        Some(bytes) => Ok(Zone { name: name_of_link(path), ..Zone::from_tzif(&bytes)? }),
        None if cfg!(unix) => Ok(Zone::utc()),
        None => Err(ZoneRefusal::Unknown),
    }
}

/// The sources of the machine's zone: `TZ`, `TZDIR`, and the last change of its file.
#[cfg(feature = "local-offset")]
type Sources = (Option<OsString>, Option<OsString>, Option<SystemTime>);

/// The zone of the machine as it was found last.
#[cfg(feature = "local-offset")]
static FOUND: Mutex<Option<(Sources, Arc<Zone>)>> = Mutex::new(None);

/// The zone of the machine, which is read again where that by which it is found has changed.
#[cfg(feature = "local-offset")]
pub(crate) fn local_zone() -> Result<Arc<Zone>, ZoneRefusal> {
    let changed = Path::new(LOCAL).metadata().and_then(|file| file.modified()).ok();
    let sources = (var_os("TZ"), var_os("TZDIR"), changed);
    let mut found = FOUND.lock().unwrap_or_else(PoisonError::into_inner);
    if let Some((before, zone)) = &*found {
        if *before == sources {
            return Ok(Arc::clone(zone));
        }
    }
    let zone = Arc::new(Zone::local()?);
    *found = Some((sources, Arc::clone(&zone)));
    Ok(zone)
}

/// The version of the data by which [`Zone::named`] finds zones, such as `2025b`, or `None` where
/// no file of their folder tells it: `+VERSION`, or the first line of `tzdata.zi`.
///
/// ```
/// if let Some(version) = muxandu::zones::data_version() {
///     println!("zones of tzdata {version}");
/// }
/// ```
#[must_use]
pub fn data_version() -> Option<String> {
    folders().iter().find_map(|folder| version_in(folder))
}

/// The version of the data of a folder.
fn version_in(folder: &Path) -> Option<String> {
    let told = read_to_string(folder.join("+VERSION"))
        .or_else(|_| read_to_string(folder.join("tzdata.zi")))
        .ok()?;
    let line = told.lines().next()?;
    Some(line.strip_prefix("# version ").unwrap_or(line).trim().into())
}
