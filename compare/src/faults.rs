//! Lists of planted faults.

/// What goes wrong: nothing, or one of these. Each is named once, so that none is left out of those that must be caught.
macro_rules! faults {
    ($visible:vis $($fault:ident,)+) => {
        #[derive(Clone, Copy, Debug, PartialEq, Eq)]
        $visible enum Fault {
            None,
            $($fault,)+
        }

        $visible const FAULTS: &[Fault] = &[$(Fault::$fault),+];
    };
}

pub(crate) use faults;
