//! What a quota may do.

use core::fmt;
use core::ops::{BitOr, BitOrAssign};

/// What a quota may do: a set of permissions.
///
/// An opening gives all of them to every quota, and
/// [`Heap::clear_permissions`](crate::Heap::clear_permissions) takes some away. Reallocating needs
/// [`ALLOCATE`](Permissions::ALLOCATE); releasing needs none.
///
/// ```
/// use lokhazim::Permissions;
///
/// let both = Permissions::ALLOCATE | Permissions::CLAIM;
/// assert!(both.contains(Permissions::CLAIM));
/// assert!(!both.contains(Permissions::ALL));
/// assert_eq!(format!("{both:?}"), "ALLOCATE | CLAIM");
/// ```
#[derive(Clone, Copy, PartialEq, Eq, Hash)]
pub struct Permissions(u8);

impl Permissions {
    /// None.
    pub const NONE: Permissions = Permissions(0);
    /// To make objects: allocate, allocate an array, reallocate.
    pub const ALLOCATE: Permissions = Permissions(1);
    /// To claim objects.
    pub const CLAIM: Permissions = Permissions(2);
    /// To drop every hold at once.
    pub const FREE_ALL: Permissions = Permissions(4);
    /// All three.
    pub const ALL: Permissions = Permissions(7);

    /// The bits, the same as in C and in [`Quota::permissions`](crate::Quota::permissions).
    ///
    /// ```
    /// assert_eq!(lokhazim::Permissions::FREE_ALL.bits(), 4);
    /// ```
    #[must_use]
    pub const fn bits(self) -> u8 {
        self.0
    }

    /// The permissions of these bits; none where a bit is set that is no permission's, that is, for
    /// every number above 7.
    ///
    /// ```
    /// use lokhazim::Permissions;
    ///
    /// assert_eq!(Permissions::from_bits(3), Some(Permissions::ALLOCATE | Permissions::CLAIM));
    /// assert_eq!(Permissions::from_bits(8), None);
    /// ```
    #[must_use]
    pub const fn from_bits(bits: u8) -> Option<Permissions> {
        match bits {
            0..=7 => Some(Permissions(bits)),
            _ => None,
        }
    }

    /// Whether all of the other permissions are among these.
    ///
    /// ```
    /// use lokhazim::Permissions;
    ///
    /// assert!(Permissions::CLAIM.contains(Permissions::NONE));
    /// assert!(!Permissions::NONE.contains(Permissions::CLAIM));
    /// ```
    #[must_use]
    pub const fn contains(self, other: Permissions) -> bool {
        self.0 & other.0 == other.0
    }

    /// The permissions that the library answers, which it is proved to answer as at most 7.
    pub(crate) const fn left(answered: u32) -> Permissions {
        Permissions((answered % 8) as u8)
    }
}

impl BitOr for Permissions {
    type Output = Permissions;

    /// The permissions of both.
    fn bitor(self, other: Permissions) -> Permissions {
        Permissions(self.0 | other.0)
    }
}

impl BitOrAssign for Permissions {
    fn bitor_assign(&mut self, other: Permissions) {
        *self = *self | other;
    }
}

impl fmt::Debug for Permissions {
    /// Shows the names with bars between them, or `NONE`.
    fn fmt(&self, f: &mut fmt::Formatter<'_>) -> fmt::Result {
        let names = [
            (Permissions::ALLOCATE, "ALLOCATE"),
            (Permissions::CLAIM, "CLAIM"),
            (Permissions::FREE_ALL, "FREE_ALL"),
        ];
        let mut bar = "";
        for (_, name) in names.iter().filter(|(one, _)| self.contains(*one)) {
            write!(f, "{bar}{name}")?;
            bar = " | ";
        }
        match *self {
            Permissions::NONE => f.write_str("NONE"),
            _ => Ok(()),
        }
    }
}
