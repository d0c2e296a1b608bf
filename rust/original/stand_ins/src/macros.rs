//! The macros: of log, which look at their arguments and print nothing; of config_select; of
//! module_macro.

macro_rules! silent {
    ($dollar:tt $($name:ident)*) => {$(
        #[macro_export]
        macro_rules! $name {
            ($dollar($dollar t:tt)*) => {{
                let _ = format_args!($dollar($dollar t)*);
            }};
        }
    )*};
}

silent! { $ error warn info debug trace }

/// The default platform, whatever the environment says.
#[macro_export]
macro_rules! select_env {
    ($env:literal : $($name:literal => $($p:ident)::+)* _ => $($d:ident)::+) => { $($d)::+ };
}

/// No module is selected.
#[macro_export]
macro_rules! build_modules {
    ($($t:tt)*) => {
        pub struct MainModule {}
        impl MainModule {
            pub const TOTAL_PMPS: usize = 0;
        }
    };
}

#[macro_export]
macro_rules! for_each_module {
    (Self { $($t:tt)* }) => {
        Self {}
    };
    ($($t:tt)*) => {};
}
