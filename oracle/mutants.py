#!/usr/bin/env python3
"""Changes copies of the originals in one place at a time and replays the recorded runs.

usage: oracle/mutants.py [pattern of names [FILE...]]

Says for each change whether the recorded runs tell it from the original: by replies, steps and
queries alone, or only by the state words. FILE: other recorded runs than the committed ones. Run
oracle/build.sh first.
"""
import os
import pathlib
import re
import shutil
import subprocess
import sys

HERE = pathlib.Path(__file__).resolve().parent
WORK = HERE / "target" / "mutants"
TREE = WORK / "tree"

TD, PS, SS = "threshold_decrypt.rs", "subset/proposal_state.rs", "subset/subset.rs"
ES, HB = "honey_badger/epoch_state.rs", "honey_badger/honey_badger.rs"
NI, TR, FL = "network_info.rs", "traits.rs", "fault_log.rs"

# Name, file, old text, new text; the old text must occur exactly once.
MUTANTS = [
    ("decrypt: second ciphertext taken", TD, "if self.ciphertext.is_some() {", "if false {"),
    ("decrypt: ciphertext not verified", TD, "if !ct.verify() {", "if false {"),
    ("decrypt: started twice", TD,
     "if self.had_input {\n            return Ok(Step::default());", "if false {\n            return Ok(Step::default());"),
    ("decrypt: start not noted", TD, "self.had_input = true;", ""),
    ("decrypt: early shares not checked", TD, "step.fault_log.extend(self.remove_invalid_shares());", ""),
    ("decrypt: invalid early share kept", TD, "self.shares.remove(&id);", ""),
    ("decrypt: own share not stored", TD, "self.shares.insert(our_id, (idx, share));", ""),
    ("decrypt: own share doesn't overwrite", TD,
     "self.shares.insert(our_id, (idx, share));", "self.shares.entry(our_id).or_insert((idx, share));"),
    ("decrypt: share heeded after termination", TD,
     "if self.terminated {\n            return Ok(Step::default()); // Don't waste time on redundant shares.\n        }\n        // Before",
     "if false {\n            return Ok(Step::default());\n        }\n        // Before"),
    ("decrypt: duplicate looked for before the check", TD,
     "if !self.is_share_valid(sender_id, &share) {",
     "if self.shares.contains_key(sender_id) {\n            return Ok(Fault::new(sender_id.clone(), FaultKind::MultipleDecryptionShares).into());\n        }\n        if !self.is_share_valid(sender_id, &share) {"),
    ("decrypt: combines after a duplicate share", TD,
     "return Ok(Fault::new(sender_id.clone(), FaultKind::MultipleDecryptionShares).into());",
     "let step: Step<N> = Fault::new(sender_id.clone(), FaultKind::MultipleDecryptionShares).into();\n            return Ok(step.join(self.try_output()?));"),
    ("decrypt: first share stays", TD,
     "if self.shares.insert(sender_id.clone(), entry).is_some() {",
     "if self.shares.contains_key(sender_id) || self.shares.insert(sender_id.clone(), entry).is_some() {"),
    ("decrypt: combines with f shares", TD,
     "self.shares.len() <= self.netinfo.num_faulty()", "self.shares.len() < self.netinfo.num_faulty()"),
    ("decrypt: termination not noted", TD,
     "self.terminated = true;\n        let step = self.start_decryption()?; // Before terminating, make sure we sent our share.",
     "let step = self.start_decryption()?;"),
    ("decrypt: combining doesn't start", TD,
     "let step = self.start_decryption()?; // Before", "let step = Step::default(); // Before"),
    ("proposal: Accepted counts as received", PS,
     "ProposalState::Ongoing(_, _) | ProposalState::Accepted(_) => false,\n            ProposalState::HasValue(_, _) => true,",
     "ProposalState::Ongoing(_, _) => false,\n            ProposalState::HasValue(_, _) | ProposalState::Accepted(_) => true,"),
    ("proposal: HasValue not received", PS,
     "ProposalState::HasValue(_, _) => true,", "ProposalState::HasValue(_, _) => false,"),
    ("proposal: Accepted not counted as accepted", PS,
     "ProposalState::Accepted(_) => true,", "ProposalState::Accepted(_) => false,"),
    ("proposal: no vote after a value", PS,
     "let (state, result) = state.handle_agreement(|ba| ba.propose(true));",
     "let result: Result<Step<N>> = Ok(Step::default());"),
    ("proposal: vote 0 after a value", PS, "|ba| ba.propose(true)", "|ba| ba.propose(false)"),
    ("proposal: vote before the broadcast's messages", PS, "step.join(vote_step)", "vote_step.join(step)"),
    ("proposal: failed broadcast ends Accepted", PS,
     "Err(err) => (Accepted(bc), Err(err)),", "Err(err) => (Complete(false), Err(err)),"),
    ("proposal: failed agreement loses the value", PS,
     "Err(err) => (HasValue(value, ba), Err(err)),", "Err(err) => (Complete(false), Err(err)),"),
    ("proposal: failed agreement accepts", PS,
     "Ongoing(bc, mut ba) => match Self::convert_ba(f(&mut ba)) {\n                Err(err) => (Ongoing(bc, ba), Err(err)),",
     "Ongoing(bc, mut ba) => match Self::convert_ba(f(&mut ba)) {\n                Err(err) => (Accepted(bc), Err(err)),"),
    ("proposal: first value counts", PS,
     "MessageContent::Broadcast,\n            )\n            .pop();",
     "MessageContent::Broadcast,\n            )\n            .into_iter().next();"),
    ("proposal: first decision counts", PS,
     "MessageContent::Agreement)\n            .pop();", "MessageContent::Agreement)\n            .into_iter().next();"),
    ("subset: votes at N-f or more", SS,
     "if self.count_accepted() == self.netinfo.num_correct() {",
     "if self.count_accepted() >= self.netinfo.num_correct() {"),
    ("subset: votes above N-f only", SS,
     "if self.count_accepted() == self.netinfo.num_correct() {",
     "if self.count_accepted() > self.netinfo.num_correct() {"),
    ("subset: no Done at N-f", SS,
     "self.count_accepted() < self.netinfo.num_correct()", "self.count_accepted() <= self.netinfo.num_correct()"),
    ("subset: decided twice", SS, "if self.decided || ", "if "),
    ("subset: Done without a decision noted", SS, "self.decided = true;", ""),
    ("subset: no vote where the value is here", SS,
     "for (proposer_id, state) in &mut self.proposal_states {\n",
     "for (proposer_id, state) in &mut self.proposal_states {\n                if state.received() { continue; }\n"),
    ("subset: round of votes ends above N-f", SS,
     "step.extend(Self::convert_step(proposer_id, state.vote_false()?));",
     "let vote = Self::convert_step(proposer_id, state.vote_false()?);\n                let accepted = state.accepted();\n                step.extend(vote);\n                if accepted && !step.output.is_empty() { break; }"),
    ("subset: no votes after a message with an empty step", SS,
     "let step = Self::convert_step(&msg.proposer_id, prop_step);\n        Ok(step.join(self.try_output()?))",
     "let step = Self::convert_step(&msg.proposer_id, prop_step);\n        if step.output.is_empty() && step.messages.is_empty() && step.fault_log.is_empty() { return Ok(step); }\n        Ok(step.join(self.try_output()?))"),
    ("epoch: share for a non-accepted proposer taken", ES,
     "if !ids.contains(&proposer_id) {", "if false {"),
    ("epoch: unread ciphertext leaves an entry", ES,
     "return Ok(Fault::new(proposer_id, FaultKind::DeserializeCiphertext).into());",
     "self.decryption.entry(proposer_id.clone()).or_insert(DecryptionState::new(self.netinfo.clone()));\n                return Ok(Fault::new(proposer_id, FaultKind::DeserializeCiphertext).into());"),
    ("epoch: invalid ciphertext leaves no entry", ES,
     "Ok(Fault::new(proposer_id, FaultKind::InvalidCiphertext).into())",
     "self.decryption.remove(&proposer_id);\n                Ok(Fault::new(proposer_id, FaultKind::InvalidCiphertext).into())"),
    ("epoch: invalid ciphertext fails", ES,
     "Err(td::Error::InvalidCiphertext(_)) => {", "Err(td::Error::InvalidCiphertext(_)) if false => {"),
    ("epoch: unreadable proposer not accepted", ES,
     "self.accepted_proposers.insert(k);\n",
     "if self.decryption.contains_key(&k) { self.accepted_proposers.insert(k); }\n"),
    ("epoch: accepted before its share is sent", ES,
     "for (k, v) in contributions {\n", "for (k, v) in contributions {\n                self.accepted_proposers.insert(k.clone());\n"),
    ("epoch: AllAtEnd keeps its list", ES, "replace(cs, vec![])", "cs.to_vec()",
     "impl<N> SubsetHandler<N> {", "impl<N: Clone> SubsetHandler<N> {"),
    ("epoch: AllAtEnd in reverse order", ES, "cs.push(proposal);", "cs.insert(0, proposal);"),
    ("epoch: AllAtEnd treated as Incremental", ES,
     "AllAtEnd => SubsetHandler::AllAtEnd(Vec::new()),", "AllAtEnd => SubsetHandler::Incremental,"),
    ("epoch: shares of non-accepted kept at Done", ES,
     "= self.decryption.remove(&id) {", "= self.decryption.get(&id) {"),
    ("epoch: no fault for shares of non-accepted at Done", ES,
     "step.fault_log.append(id.clone(), fault_kind);", "let _ = (id, fault_kind);"),
    ("epoch: plain contribution doesn't replace shares", ES,
     "self.decryption\n                        .insert(k.clone(), DecryptionState::Complete(v));",
     "self.decryption\n                        .entry(k.clone()).or_insert(DecryptionState::Complete(v));"),
    ("epoch: batch doesn't wait for decryption", ES,
     "None | Some(DecryptionState::Ongoing(_)) => return None,", "None | Some(DecryptionState::Ongoing(_)) => {}"),
    ("epoch: bad contribution without fault", ES,
     "Err(_) => fault_log.append(id, FaultKind::BatchDeserializationFailed),", "Err(_) => {}"),
    ("epoch: received counts none after Done", ES,
     "SubsetState::Complete(ref proposer_ids) => proposer_ids.len(),", "SubsetState::Complete(_) => 0,"),
    ("engine: look-ahead one too short", HB,
     "if epoch > self.epoch + self.params.max_future_epochs {", "if epoch >= self.epoch + self.params.max_future_epochs {"),
    ("engine: late message blamed", HB,
     "// The message is late; discard it.\n            Ok(Step::default())",
     "Ok(Fault::new(sender_id.clone(), FaultKind::UnexpectedHbMessageEpoch).into())"),
    ("engine: has input noted only where nothing fails", HB,
     "self.has_input = true;\n        let step = self.epoch_state_mut(self.epoch)?.propose(proposal, rng)?;",
     "let step = self.epoch_state_mut(self.epoch)?.propose(proposal, rng)?;\n        self.has_input = true;"),
    ("engine: observer has no input", HB,
     "!self.netinfo.is_validator() || self.has_input", "self.has_input"),
    ("engine: has input kept in the next epoch", HB,
     "self.epoch += 1;\n        self.has_input = false;", "self.epoch += 1;"),
    ("engine: skip hands out batches", HB,
     "while self.epoch < epoch {\n            self.update_epoch();\n        }",
     "while self.epoch < epoch {\n            self.update_epoch();\n        }\n        let _ = self.try_output_batches();"),
    ("engine: skip stops one short", HB, "while self.epoch < epoch {", "while self.epoch + 1 < epoch {"),
    ("engine: one batch a call", HB,
     "while let Some((batch, fault_log)) = self", "if let Some((batch, fault_log)) = self"),
    ("engine: no batch after propose", HB,
     "let step = self.epoch_state_mut(self.epoch)?.propose(proposal, rng)?;\n        Ok(step.join(self.try_output_batches()?))",
     "let step = self.epoch_state_mut(self.epoch)?.propose(proposal, rng)?;\n        Ok(step)"),
    ("engine: batches only for the current epoch's messages", HB,
     ".handle_message_content(sender_id, content)?;\n            Ok(step.join(self.try_output_batches()?))",
     ".handle_message_content(sender_id, content)?;\n            if epoch != self.epoch { return Ok(step); }\n            Ok(step.join(self.try_output_batches()?))"),
    ("engine: TickTock below on", HB, "<= u64::from(on)", "< u64::from(on)"),
    ("engine: EveryNthEpoch one late", HB, "(epoch % u64::from(n)) == 0", "(epoch % u64::from(n)) + 1 == u64::from(n)"),
    ("network: N-f one too high below N", NI, "self.num() - self.num_faulty\n", "(self.num() - self.num_faulty + 1).min(self.num())\n"),
    ("steps: messages appended in front", TR,
     "self.messages.extend(other.messages);", "self.messages.splice(0..0, other.messages);"),
    ("steps: faults of a part in front", TR,
     "let fails = other.fault_log.map(f_fail);\n        self.fault_log.extend(fails);",
     "let mut fails = other.fault_log.map(f_fail);\n        std::mem::swap(&mut self.fault_log, &mut fails);\n        self.fault_log.extend(fails);"),
    ("faults: appended in front", FL, "self.0.extend(new_logs.0);", "self.0.splice(0..0, new_logs.0);"),
]

# Changes that no run from create can show, and why.
SILENT = {
    "decrypt: second ciphertext taken":
        "a proposal hands out its value once, so a ciphertext is never set twice: 25 can't be reached",
    "decrypt: combines after a duplicate share":
        "a duplicate doesn't raise the number of shares: had there been enough, they were combined before",
    "decrypt: combining doesn't start":
        "a ciphertext is set and decryption started in one call, and starting notes itself before it can fail",
    "steps: faults of a part in front":
        "every caller of extend_with extends an empty step",
}


def run(*command, **options):
    return subprocess.run(command, stdout=subprocess.PIPE, stderr=subprocess.STDOUT, text=True, **options)


def build():
    environment = dict(os.environ, CARGO_TARGET_DIR=str(WORK / "build"), CARGO_PROFILE_RELEASE_OPT_LEVEL="1")
    return run("cargo", "build", "--release", "--offline", "--quiet", "-j1", cwd=TREE, env=environment)


def replay(*options):
    files = sys.argv[2:] or sorted(str(path) for path in (HERE / "recorded").glob("*.bin"))
    oracle = WORK / "build" / "release" / "oracle"
    try:
        result = run(str(oracle), "replay", *options, *files, timeout=300)
    except subprocess.TimeoutExpired:
        return "it doesn't end"
    lines = result.stdout.strip().splitlines()
    return None if result.returncode == 0 else (lines[-1] if lines else "the program broke off")


def copy_tree():
    shutil.rmtree(TREE, ignore_errors=True)
    TREE.mkdir(parents=True)
    for name in ["Cargo.toml", "Cargo.lock"]:
        shutil.copy(HERE / name, TREE / name)
    for name in ["original", "runs", "stand-ins", "originals"]:
        # The copies may be written whatever the originals' permissions are.
        shutil.copytree(HERE / name, TREE / name, copy_function=shutil.copyfile)


def main():
    pattern = sys.argv[1] if len(sys.argv) > 1 else ""
    copy_tree()
    built = build()
    if built.returncode != 0 or replay() is not None:
        sys.exit(f"the unchanged original does not replay: {built.stdout}{replay()}")
    wrong = 0
    tally = {"calls": 0, "state": 0, "silent": 0}
    for name, file, *changes in [m for m in MUTANTS if re.search(pattern, m[0])]:
        path = TREE / "originals" / file
        kept = text = path.read_text()
        for old, new in zip(changes[::2], changes[1::2]):
            if text.count(old) != 1:
                sys.exit(f"{name}: the old text occurs {text.count(old)} times")
            text = text.replace(old, new)
        path.write_text(text)
        built = build()
        if built.returncode != 0:
            sys.exit(f"{name}: does not build\n{built.stdout}")
        by_state, by_calls = replay(), replay("--no-state")
        path.write_text(kept)
        if by_calls:
            tally["calls"] += 1
            verdict = f"told by replies, steps or queries ({by_calls.split('/')[-1]})"
        elif by_state:
            tally["state"] += 1
            verdict = f"told by the state words only ({by_state.split('/')[-1]})"
        else:
            tally["silent"] += 1
            verdict = f"not told: {SILENT.get(name, 'NO REASON KNOWN')}"
        wrong += (name in SILENT) != (by_state is None and by_calls is None)
        print(f"{name}: {verdict}", flush=True)
    print(f"{sum(tally.values())} changes: {tally['calls']} told by replies, steps or queries, "
          f"{tally['state']} by the state words only, {tally['silent']} not told")
    sys.exit(1 if wrong else 0)


main()
