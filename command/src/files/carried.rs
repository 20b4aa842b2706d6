//! What a new file has of the old one beside its bytes: owner, access list, extended attributes, mode. It never lets
//! anybody do more than the old one did, not even for a moment.
use crate::failure::Failure;
use crate::{system, text};
use std::ffi::CString;
use std::fs::{File, Metadata};
use std::io::{self, ErrorKind};
use std::os::unix::fs::{MetadataExt, fchown};
use std::path::Path;

/// The access list of a file, which is one of its extended attributes.
const ACCESS_LIST: &str = "system.posix_acl_access";

/// What is carried over.
pub struct Carried {
    metadata: Metadata,
    attributes: Vec<(CString, Vec<u8>)>,
}

impl Carried {
    pub fn of(file: &File) -> io::Result<Carried> {
        let mut attributes = Vec::new();
        for name in system::attributes(file)? {
            let value = system::attribute(file, &name)?;
            attributes.push((name, value));
        }
        Ok(Carried { metadata: file.metadata()?, attributes })
    }

    /// Whether a file has the same.
    pub fn is_of(&self, file: &File) -> bool {
        let same = |now: &Carried| {
            let rights = |metadata: &Metadata| (metadata.mode(), metadata.uid(), metadata.gid());
            rights(&now.metadata) == rights(&self.metadata) && now.attributes == self.attributes
        };
        Carried::of(file).is_ok_and(|now| same(&now))
    }

    /// Whether a new file could have the owner, as far as that shows without one.
    pub fn may_be_given(&self, name: &Path) -> Result<(), Failure> {
        let user = system::user();
        if user == 0 || user == self.metadata.uid() { Ok(()) } else { Err(another_owner(name)) }
    }

    /// Gives it to a new file that only its owner may read and write so far. The mode comes last: with an access list
    /// its bits for the group are what that list allows at most, and without one they would be the group's own.
    pub fn give(&self, new: &File, name: &Path) -> Result<(), Failure> {
        let failed = |error| Failure::file(name, error);
        let file = text::file(name);
        let now = new.metadata().map_err(failed)?;
        if (now.uid(), now.gid()) != (self.metadata.uid(), self.metadata.gid()) {
            fchown(new, Some(self.metadata.uid()), Some(self.metadata.gid())).map_err(|_| another_owner(name))?;
        }
        // A folder may give its files an access list that the old one does not have.
        if !self.attributes.iter().any(|(name, _)| name.as_bytes() == ACCESS_LIST.as_bytes()) {
            match system::remove_attribute(new, &CString::new(ACCESS_LIST).unwrap_or_default()) {
                Err(error) if !has_none(&error) => return Err(failed(error)),
                _ => {}
            }
        }
        for (attribute, value) in &self.attributes {
            if system::attribute(new, attribute).is_ok_and(|now| now == *value) {
                continue;
            }
            system::set_attribute(new, attribute, value).map_err(|error| {
                let attribute = text::plain(&attribute.to_string_lossy());
                let what = if attribute == ACCESS_LIST { "an access list" } else { "an extended attribute" };
                Failure::Unwilling(format!("'{file}' has {what} ({attribute}) that cannot be kept: {error}: use -o"))
            })?;
        }
        new.set_permissions(self.metadata.permissions()).map_err(failed)
    }
}

fn another_owner(name: &Path) -> Failure {
    let file = text::file(name);
    Failure::Unwilling(format!("'{file}' is owned by another user, and ownership cannot be kept: use -o"))
}

/// Whether the file has no such attribute, or its file system has none at all.
fn has_none(error: &io::Error) -> bool {
    error.kind() == ErrorKind::Unsupported || error.raw_os_error() == Some(system::ENODATA)
}
