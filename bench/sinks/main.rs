// What stands in the place of the program's own end of main.rt: a run over sinks in memory, which may be refused room to grow. The
// output and the note are handed on when the run is over.
use crate::arguments::words_of;
use crate::run::{max_input, run};
use opus_io::{FromRead, SteadySink, ToWrite, write_all};
use std::process::ExitCode;

fn main(rt: HostRuntime) -> ExitCode {
    let alloc = rt.alloc();
    let mut out = SteadySink::new(alloc);
    let mut note = SteadySink::new(alloc);
    let status = match words_of(&rt) {
        Ok(words) => {
            let mut source = FromRead::new(rt.stdin());
            let words = words.as_slice();
            run(alloc, words, max_input(), &mut source, &mut out, &mut note)
        }
        Err(finish) => finish.tell(&mut note),
    };
    let written = write_all(&mut ToWrite::new(rt.stdout()), out.contents());
    let told = write_all(&mut ToWrite::new(rt.stderr()), note.contents());
    ExitCode::from(if written.is_ok() && told.is_ok() {
        status.code()
    } else {
        71
    })
}
