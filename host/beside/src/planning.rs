//! Plans. Where a call says what is staged, by the crate's methods, which work the headrooms out; where it hands in headrooms that no staging area has, by
//! the raw layer, on a copy of the words that is loaded again.

use crate::{Host, Said};
use calls::{Answer, Call, Entry, Lent, Reason, Release, Request, Staging};
use kofudile::{Chain, DownloadWindow, Hash256, PeerRequest, Refusal, Stager, ffi};

const PLACES: usize = 256;
const BLANK: ffi::Release =
    ffi::Release { entry: ffi::Entry { hash: ffi::Hash([0; 4]), owner: 0, time: 0, height: 0, estimate: 0 }, reason: 0 };

impl Host {
    pub(crate) fn plan(&self, window: &mut DownloadWindow, call: &Call) -> Option<Said> {
        let (clock, source, lent) = call.plan()?;
        let allowing_retry = matches!(call, Call::NextPeerRequestAllowingRetry { .. });
        Some(match lent.staging {
            Some(staging) => self.planned(window, allowing_retry, clock, source, lent, staging),
            None => self.planned_raw(window, allowing_retry, clock, source, lent),
        })
    }

    fn planned(
        &self,
        window: &mut DownloadWindow,
        allowing_retry: bool,
        clock: u64,
        source: u8,
        lent: &Lent,
        staging: Staging,
    ) -> Said {
        let form = match allowing_retry {
            false => DownloadWindow::next_peer_request,
            true => DownloadWindow::next_peer_request_allowing_retry,
        };
        let chain: Chain = hashes(&lent.chain).into_iter().collect();
        let (staged, refused) = (hashes(&lent.staged), hashes(&lent.refused));
        let stager = Stager { hashes: &staged, bytes: staging.bytes as usize, max_received_bytes: staging.limit as usize };
        let now = self.at(clock);
        let said = form(window, &stager, source, lent.tip(), lent.start, lent.best, lent.floor, &chain, now, &refused);
        self.with_released(window, said.map(|request| Answer::Proposed(request.map(plain))))
    }

    fn planned_raw(&self, window: &mut DownloadWindow, allowing_retry: bool, clock: u64, source: u8, lent: &Lent) -> Said {
        let form = match allowing_retry {
            false => ffi::kofudile_next_peer_request_words,
            true => ffi::kofudile_next_peer_request_allowing_retry_words,
        };
        let zero = window.clock_zero();
        let (mut copy, mut report) = (Box::new(*window.words()), [BLANK; PLACES]);
        let (mut plan_hashes, mut plan_heights) = ([0; 4 * PLACES], [0; PLACES]);
        let (chain, staged, refused) = (words(&lent.chain), words(&lent.staged), words(&lent.refused));
        // SAFETY: what is written is ours and apart, and every list lives through the call.
        let said = unsafe {
            form(
                copy.as_mut_ptr(),
                copy.len(),
                report.as_mut_ptr(),
                PLACES,
                plan_hashes.as_mut_ptr(),
                plan_hashes.len(),
                plan_heights.as_mut_ptr(),
                PLACES,
                source.into(),
                chain.as_ptr(),
                chain.len(),
                lent.tip(),
                lent.start,
                lent.best,
                lent.floor,
                staged.as_ptr(),
                staged.len(),
                refused.as_ptr(),
                refused.len(),
                lent.exhausted,
                lent.byte_headroom,
                lent.count_headroom,
                self.at(clock).checked_duration_since(zero).map_or(u64::MAX, |age| age.as_nanos() as u64),
            )
        };
        if said.refused != 0 {
            return Err(Refusal::Clock);
        }
        *window = DownloadWindow::from_words(copy, zero)?;
        let hash = |words: &[u64]| hash(&[words[0], words[1], words[2], words[3]]);
        let planned = plan_hashes.chunks_exact(4).map(hash).zip(plan_heights).take(said.count as usize);
        let request = Request { owner: source, entries: planned.collect(), next_request_height: said.next_height as u32 };
        let gone = report[..said.places as usize].iter().map(|release| Release {
            entry: Entry {
                hash: hash(&release.entry.hash.0),
                owner: release.entry.owner as u8,
                requested_at: self.clock(zero) + release.entry.time,
                height: release.entry.height as u32,
                estimated_bytes: release.entry.estimate,
            },
            reason: if release.reason == 6 { Reason::OwnerTimedOut } else { Reason::PassedOver },
        });
        Ok((Answer::Proposed((said.count > 0).then_some(request)), gone.collect()))
    }
}

fn hashes(list: &[calls::Hash]) -> Vec<Hash256> {
    list.iter().map(|hash| Hash256(hash.0)).collect()
}

fn words(list: &[calls::Hash]) -> Vec<u64> {
    let word = |bytes: &[u8]| bytes.iter().fold(0, |word, byte| word << 8 | u64::from(*byte));
    list.iter().flat_map(|hash| hash.0.chunks_exact(8).map(word).collect::<Vec<_>>()).collect()
}

fn hash(words: &[u64; 4]) -> calls::Hash {
    let mut bytes = [0; 32];
    for (bytes, word) in bytes.chunks_exact_mut(8).zip(words) {
        bytes.copy_from_slice(&word.to_be_bytes());
    }
    calls::Hash(bytes)
}

fn plain(request: PeerRequest) -> Request {
    let entries = request.entries().map(|(height, hash)| (calls::Hash(hash.0), height)).collect();
    Request { owner: request.owner(), entries, next_request_height: request.next_request_height }
}
