"""tools/source_mistakes.py: the mistakes that tools/source plants in the sources and must find: what finds it, a file, what stands there, and
what would stand there instead. Each is a body, or a piece of one, that the prover accepts."""

PLANTED = [
    ("field", "tp_manager/src/manager.rt", "pub(crate) shared: Shared,", "pub(crate) shared: Shared,\n    kept: Global,"),
    ("field", "tp_manager/src/manager.rt", "pub(crate) given: u16,", "pub(crate) given: u16,\n    others: Vec<u64>,"),
    ("field", "tp_manager/src/manager.rt", "pub(crate) used: u16,", "pub(crate) used: u16,\n    pub(crate) busy: AtomicBool,"),
    ("name", "tp_manager/src/submitting.rt", "let seat =", "let mut kept = Vec::new(self.alloc);\n        let seat ="),
    ("name", "tp_manager/src/claiming.rt", "let seat =", "while self.busy.swap(true) { std::thread::yield_now(); }\n        let seat ="),
    ("name", "tp_rule/src/words.rt", "let limits = places.limits;", "let spare = Box::new(0u64);\n        let limits = places.limits;"),
    ("loop", "tp_manager/src/killing.rt", "let seat =", "for _ in 0..1000 {\n        }\n        let seat ="),
    ("loop", "tp_manager/src/ending.rt", "let seat =", "while self.is_busy() {\n        }\n        let seat ="),
    ("loop", "tp_manager/src/ending.rt", "let seat =", "let _ = (0..1000).any(|n| n > 2000);\n        let seat ="),
    ("name", "tp_manager/src/ending.rt", "let seat =", "let _ = self.shared.words.peek(0);\n        let seat ="),
    ("name", "tp_manager/src/manager.rt", "match Words::new(alloc, places) {", "let other = Words::new(alloc, places);\n        match Words::new(alloc, places) {"),
    ("circle", "tp_manager/src/submitting.rt", "let seat =", "let _ = self.submit(pass, stage, body);\n        let seat ="),
    ("want of memory", "tp_plain/src/plain.rt", "if !limits.is_valid() {", "if limits.parts > 31 {\n            return Err(Refusal::NoMemory);\n        }\n        if !limits.is_valid() {"),
    ("want of memory", "tp_session/src/requests.rt", "match self.store.requeue(id) {", "if id > 7 {\n            return Err(LineError::NoMemory);\n        }\n        match self.store.requeue(id) {"),
    ("shell", "tp_live/src/main.rt", "reader: StdSource::new(rt.reader()),", "reader: StdSource::new(rt.stdin()),"),
    ("shell", "tp_live/src/main.rt", "ExitCode::from(converse_to_end(", "let _ = rt.reader();\n    ExitCode::from(converse_to_end("),
    ("shell", "tp_kept/src/program.rt", "let found = match recover(", "let bytes = Vec::new(alloc);\n    let found = match recover("),
    ("shell", "tp_script/src/source.rt", "match read_again(&mut self.reader, buffer) {", "if self.asked > 1_000_000 {\n            return Ok(0);\n        }\n        match read_again(&mut self.reader, buffer) {"),
    # A call that burns time: a read for C, a turn, and a commit by a loop of a kind that is known.
    ("loop", "covetrivet_c/src/client.rt", "let answer = inner.read(id);", "for _ in 0..1_000_000_000_000u64 {\n    }\n    let answer = inner.read(id);"),
    ("loop", "tp_desk/src/turning.rt", "match self.claim_by(order) {", "for i in 0..1_000_000_000_000u64 {\n        }\n        match self.claim_by(order) {"),
    ("loop", "tp_manager/src/streak.rt", "if unit == self.end {", "let count = 1_000_000_000_000u64;\n        for i in 0..count {\n        }\n        if unit == self.end {"),
    # A known loop that goes further, one whose lines change, and one that is gone.
    ("loop", "tp_rollover/src/families.rt", "refill(new_roots, None,", "for _done in 0..count {\n    }\n    refill(new_roots, None,"),
    ("loop", "tp_rollover/src/groups.rt", "let end = rest.len().min(4);", "let end = rest.len().min(4000000);"),
    ("loop", "tp_manager/src/gaps.rt", "while row < to {", "while row < to {\n            if self.turns_left() {\n                continue;\n            }"),
    ("loop", "tp_rollover/src/passes.rt", "for place in 0..passes.len() {", "for place in 0..0 {"),
    # A turn that goes a thousand million calls deep.
    ("circle", "tp_desk/src/turning.rt", "impl Desk<'_, '_, '_> {", "fn dig(depth: u64) -> u64 {\n    if depth == 0 {\n        return 1;\n    }\n    dig(depth - 1)\n}\n\nimpl Desk<'_, '_, '_> {"),
    # What is leaked: a caller, by its box and by its handle; a manager; memory that a submit takes; the manager before a rollover.
    ("leak", "covetrivet_c/src/making.rt", "None => OK,", "None => {\n            let _lost = Box::leak(inner);\n            OK\n        }"),
    ("leak", "covetrivet_c/src/making.rt", "let Some(inner) = caller.lift(alloc) else {", "*caller = CallerHandle::closed();\n    let Some(inner) = caller.lift(alloc) else {"),
    ("leak", "covetrivet_c/src/making.rt", "let _ = manager.lift(alloc);", "*manager = HomeHandle::closed();"),
    ("leak", "covetrivet_c/src/client.rt", "let answer = inner.submit(stage, *body);", "if let Ok(lost) = Vec::<u64>::new(alloc).clone() {\n        let _lost = Vec::leak(lost);\n    }\n    let answer = inner.submit(stage, *body);"),
    ("amount", "covetrivet_c/src/client.rt", "let answer = inner.submit(stage, *body);", "let much = Vec::<u64>::with_capacity(alloc, 100000);\n    let answer = inner.submit(stage, *body);"),
    ("leak", "tp_rollover/src/managed.rt", "*self = next;", "let old = std::mem::replace(self, next);\n                if let Ok(kept) = Box::new(alloc, old) {\n                    let _lost = Box::leak(kept);\n                }"),
    # A want of memory that comes from nothing, by each of its names, and a room that can't be.
    ("want of memory", "tp_rule/src/words.rt", "let limits = places.limits;", "let limits = places.limits;\n        if limits.parts > 16 {\n            return Err(AllocError);\n        }"),
    ("want of memory", "tp_journal/src/sealing.rt", "if let Err(refusal) = check(batch) {", "if batch.len() > 60 {\n        return Err(AppendError::Memory);\n    }\n    if let Err(refusal) = check(batch) {"),
    ("want of memory", "tp_journal/src/recovery.rt", "if bytes.is_empty() {", "if bytes.len() > 2_097_152 {\n        return Err(OpenError::Memory);\n    }\n    if bytes.is_empty() {"),
    ("want of memory", "tp_commands/src/client.rt", "let replies = found.as_slice();\n    line(alloc, Answer::Collected", "if found.len() > 3 {\n        return Err(AllocError);\n    }\n    let replies = found.as_slice();\n    line(alloc, Answer::Collected"),
    ("want of memory", "covetrivet_c/src/making.rt", "let Some(home) = manager.lift(alloc) else {\n        return CLOSED;\n    };\n    let Some(inner)", "if caller.is_new() {\n        return NO_MEMORY;\n    }\n    let Some(home) = manager.lift(alloc) else {\n        return CLOSED;\n    };\n    let Some(inner)"),
    ("amount", "tp_commands/src/rollover.rt", "match managed.roll_over(alloc) {", "let mut much: Vec<u8> = Vec::new(alloc);\n    much.reserve_exact(4_611_686_018_427_387_904)?;\n    match managed.roll_over(alloc) {"),
    # A journal's device that begins anew, leaves out a sync, or takes no lock; a session of which nothing is answered.
    ("shell", "tp_journal/src/file.rt", "calls.note(&[OPENED, 0, 1], &bytes);", "bytes.clear();\n        calls.note(&[OPENED, 0, 1], &bytes);"),
    ("shell", "tp_journal/src/file.rt", "fs::rename(rt, from, to)?;\n    folder.sync_all()", "let _ = folder;\n    fs::rename(rt, from, to)"),
    ("shell", "tp_journal/src/file.rt", "        file.sync_all()?;\n        folder.sync_all()?;\n", ""),
    ("shell", "tp_journal/src/file.rt", "Some(file) => file.sync_all(),", "Some(_) => Ok(()),"),
    ("shell", "tp_journal/src/file.rt", "let answer = self.file.sync_data();", "let answer = Ok(());"),
    ("shell", "tp_journal/src/file.rt", "if lock.try_lock().is_err() {\n            return Err(io::ErrorKind::ResourceBusy.into());\n        }\n", ""),
    ("shell", "tp_kept/src/program.rt", "match keep(alloc, kept, cut, reader, writer) {\n        Ok(()) => 0,\n        Err(why) => {\n            tell_end(why, faults);\n            1\n        }\n    }", "1"),
]
