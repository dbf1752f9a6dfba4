//! Loading code. The archive has no function for it, so code is run over one frame
//! there; the program `runs` loads it alone.

use crate::call::{Before, Call};
use crate::compare::List;
use crate::entry::Entry;
use crate::lent::Lent;
use crate::program;
use crate::run::{library_run, second_run};
use second::entry::Case;
use second::load_code::case::LoadCode;

pub const ENTRY: Entry = Entry {
    verbs: LoadCode::VERBS,
    answer: program::answer_of_runs::<LoadCode>,
    lists: &[
        List {
            name: "code, run over a frame",
            least: 89_000,
            long: false,
            compare: |list, seed, all| all.calls(list, LoadCode::cases(seed)),
        },
        List {
            name: "load-code",
            least: 89_000,
            long: true,
            compare: |list, seed, all| all.lines(list, LoadCode::cases(seed), program::runs),
        },
    ],
};

impl Call<3> for LoadCode {
    fn before(&self) -> [Before<'_>; 3] {
        [
            Before::Read(&self.code),
            Before::Read(&[0x55]),
            Before::Room(1),
        ]
    }

    fn by_library(&self, buffers: &mut [Lent; 3]) -> u64 {
        library_run(buffers)
    }

    fn by_second(&self, buffers: &mut [Lent; 3]) -> u64 {
        second_run(buffers)
    }

    fn words(&self) -> String {
        self.line()
    }
}
