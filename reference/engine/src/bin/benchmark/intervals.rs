//! Sites as intervals of Arb and of MPFI, where `build.rs` found them.

use engine::sites::{numbers_of, SITE_NUMBERS};
use reference::project::Header;
use reference::record::Site;

/// A site's numbers, as the C files have them.
pub type Numbers = [u64; SITE_NUMBERS];

/// Two ends of the predicted and two of the expected crashes, in millionths.
pub type Ends = [f64; 4];

type Call = unsafe extern "C" fn(*const [u64; 4], *const Numbers, usize, *mut Ends);

#[cfg(has_arb)]
extern "C" {
    fn arb_lines(header: *const [u64; 4], sites: *const Numbers, n: usize, ends: *mut Ends);
}

#[cfg(has_mpfi)]
extern "C" {
    fn mpfi_lines(header: *const [u64; 4], sites: *const Numbers, n: usize, ends: *mut Ends);
}

/// An interval library with Debian's package of it.
pub struct Library {
    pub name: &'static str,
    pub package: &'static str,
    call: Option<Call>,
}

pub const LIBRARIES: [Library; 2] = [
    Library {
        name: "Arb, 64 bits",
        package: "libflint-arb-dev",
        #[cfg(has_arb)]
        call: Some(arb_lines),
        #[cfg(not(has_arb))]
        call: None,
    },
    Library {
        name: "MPFI, 64 bits",
        package: "libmpfi-dev",
        #[cfg(has_mpfi)]
        call: Some(mpfi_lines),
        #[cfg(not(has_mpfi))]
        call: None,
    },
];

pub fn numbers_of_sites(sites: &[Site]) -> Vec<Numbers> {
    sites.iter().map(numbers_of).collect()
}

impl Library {
    pub fn is_installed(&self) -> bool {
        self.call.is_some()
    }

    /// Makes the intervals of sites that the writer takes, and drops them.
    pub fn make(&self, header: &Header, sites: &[Numbers]) {
        self.lines(header, sites, std::ptr::null_mut());
    }

    /// Leaves the ends of the intervals of sites that the writer takes.
    pub fn ends_into(&self, header: &Header, sites: &[Numbers], ends: &mut [Ends]) {
        assert_eq!(sites.len(), ends.len());
        self.lines(header, sites, ends.as_mut_ptr());
    }

    fn lines(&self, header: &Header, sites: &[Numbers], ends: *mut Ends) {
        let call = self.call.expect("an installed library");
        let header = header.numbers();
        // SAFETY: the pointer and the length are those of one slice, and `ends`
        // is null or has as many items.
        unsafe { call(&header, sites.as_ptr(), sites.len(), ends) }
    }
}
