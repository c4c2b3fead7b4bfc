//! Tests that a caller who ignores what these calls give back is warned: each compiles behind `let _ =`, and not alone.

macro_rules! is_warned_of {
    ($($name:ident: $call:literal;)*) => {
        $(
            #[doc = concat!("```\n#![deny(unused_must_use)]\nlet _ = ", $call, ";\n```\n")]
            #[doc = concat!("```compile_fail\n#![deny(unused_must_use)]\n", $call, ";\n```\n")]
            struct $name;
        )*
    };
}

is_warned_of! {
    Taken: "talazumir::Link::new().take(&[])";
    Commands: "talazumir::Link::new().commands([[1]])";
    State: "talazumir::lent::State::fresh()";
    Step: "talazumir::lent::take(talazumir::lent::State::fresh(), &[], &mut [], &mut [0; 2_304])";
    Verdict: "talazumir::lent::verdict(&[], &mut [0; 2_304])";
    Written: "talazumir::canonical(&[], &mut [])";
}
