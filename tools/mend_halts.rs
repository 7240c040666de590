//! Cases of dropped halts: what a thread closes on, its targets, 64 statements, and faults behind threads that
//! get a halt, so that their places in the original and in the mended sheet differ.

use crate::entries::Cases;
use crate::field::field;
use crate::mend_answer::Case;
use crate::mend_cases::needed;
use crate::mend_ends::of_each_code;
use crate::mend_garbled::*;
use crate::sheet_parts::*;

/// A skip's field with another code, and bytes behind it.
fn coded(code: u8, more: &[u8]) -> Vec<u8> {
    field(6, &[&[0, 1, 0, 1, code], more].concat())
}

/// What may stand behind a statement: nothing, fragments of a header, headers and fields of each tag.
fn behind() -> Vec<Vec<u8>> {
    let mut all: Vec<Vec<u8>> =
        [&[][..], &[4], &[6], &[0], &[4, 0], &[6, 0], &[9, 9], &[4, 0, 0], &[4, 0, 1], &[4, 0, 2, 0, 0]]
            .map(<[u8]>::to_vec)
            .to_vec();
    all.extend([0, 1, 2, 3, 5, 7, 48, 255].map(|tag| vec![tag, 0, 0]));
    all.extend([0, 2, 3, 5].map(|tag| vec![tag, 0, 9, 1]));
    all.extend(
        [&[4, 255, 255][..], &[6, 0, 5, 0, 1], &[6, 0, 4, 0, 1, 0, 1], &[6, 255, 255], &[4, 0, 1, 9]]
            .map(<[u8]>::to_vec),
    );
    all.extend([thread(&[], &[]), open(&[], &[skip((2, 1))]), field(4, &[0]), field(5, &[0; 8]), halt()]);
    all
}

/// A second thread with each fault that a thread can have, by the number that is given.
fn faults() -> Vec<Vec<u8>> {
    let with = |statement: Vec<u8>| thread(&[(1, 0)], &[statement]);
    let mut all = vec![
        // 1, 2
        vec![4, 0, 1, 0],
        vec![4, 0],
        vec![4, 0, 1],
        vec![4, 0, 1, 1],
        [&[4, 0, 1, 2][..], &[5, 0, 8, 0, 0, 0, 2, 0, 0, 0, 1]].concat(),
        with(skip((1, 1)))[..24].to_vec(),
        [vec![4, 0, 1, 0], field(5, &[0; 8])].concat(),
        [thread(&[], &[skip((2, 1))]), vec![3, 0, 1, 0]].concat(),
        [open(&[], &[]), field(4, &[0]), halt()].concat(),
        // 3, 4
        field(4, &[0, 0]),
        [open(&[], &[]), coded(1, &[0])].concat(),
        field(4, &[9]),
        with(skip((0, 1))),
        with(skip((1, 0))),
        with(coded(8, &[])),
        open(&[(1, 0)], &[coded(255, &[])]),
    ];
    // 5, 6
    all.extend([load((2, 1), 1, 0), store((1, 1), 0, 1), lock((1, 1), 1), jump((1, 1), 3, &[32])].map(with));
    all.extend([jump((1, 1), 0, &[16]), assign((2, 1), 0, &[99]), assign((1, 1), 0, &[16, 0])].map(with));
    // 5 with an added halt
    all.push(open(&[], &[skip((3, 2)), jump((1, 1), 3, &[32])]));
    // 8: three threads more, then a fifth; 65 statements, and a halt as the 65th
    all.push([thread(&[], &[]), open(&[], &[skip((2, 1))]), thread(&[], &[]), field(4, &[0]), halt()].concat());
    all.extend([64, 65].map(|count| open(&[], &vec![skip((1, 1)); count])));
    all.push(thread(&[], &vec![skip((1, 1)); 64]));
    all
}

impl Cases<Case> {
    pub fn halts(&mut self) {
        self.closings();
        self.targets();
        self.sixty_four();
        self.places();
        self.many();
    }

    fn closings(&mut self) {
        let one = |statement: Vec<u8>| headed(&[open(&[], &[statement])]);
        for behind in behind() {
            let jumps = [1, 2].map(|target| jump((1, 1), target, &[32]));
            for statement in [&jumps[..], &[skip((3, 2)), halt(), coded(8, &[]), coded(0, &[0])]].concat() {
                self.fit(&[one(statement), behind.clone()].concat());
            }
        }
        for more in [&[][..], &[0], &[0, 0], &[0, 32]] {
            for code in [0, 1, 2, 3, 6, 8, 9, 128, 255] {
                self.fit(&one(coded(code, more)));
            }
        }
        for statement in of_each_code((1, 2)) {
            let sheet = |threads: &[Vec<u8>]| sheet_of(TEN, 1, &[(0, 1)], threads);
            let thread = open(&[(0, 3)], &[statement]);
            self.fit(&sheet(&[thread.clone()]));
            self.fit(&sheet(&[thread.clone(), thread.clone(), thread]));
        }
        // threads that are only a halt, threads without a statement, halts before the last
        for between in
            [vec![halt()], vec![], vec![halt(), skip((1, 1))], vec![skip((1, 1)), halt(), skip((2, 1)), skip((1, 1))]]
        {
            let thread = open(&[], &between);
            let skips = open(&[], &[skip((1, 3))]);
            self.fit(&headed(&[thread.clone()]));
            self.fit(&headed(&[thread.clone(), skips.clone()]));
            self.fit(&headed(&[skips.clone(), thread.clone()]));
            self.fit(&headed(&[skips.clone(), thread.clone(), skips, thread]));
        }
        // statements without a thread, and a halt that would be the whole sheet
        for sheet in [skip((2, 1)), halt(), [front(), skip((2, 1))].concat(), [skip((1, 1)), front()].concat(), front()]
        {
            self.fit(&sheet);
        }
    }

    /// Targets around the number of statements, with and without a halt.
    fn targets(&mut self) {
        for count in 0..4 {
            for target in (0..count as u8 + 4).chain([63, 64, 255]) {
                let jump = jump((1, 1), target, &[32]);
                let last = [vec![skip((1, 2)); count], vec![jump.clone()]].concat();
                let first = [vec![jump], vec![skip((1, 2)); count]].concat();
                self.fit(&headed(&[open(&[], &last)]));
                self.fit(&headed(&[thread(&[], &last)]));
                self.fit(&headed(&[open(&[], &[skip((2, 1))]), open(&[], &first)]));
                self.fit(&headed(&[open(&[], &first), open(&[], &[])]));
            }
        }
    }

    /// About 64 statements, and what may stand behind them.
    fn sixty_four(&mut self) {
        let skips = |count: usize| vec![skip((1, 1)); count];
        for count in [62, 63, 64, 65] {
            for target in [count as u8, count as u8 + 1, 64, 200] {
                let jumps = [vec![jump((1, 1), target, &[32])], skips(count - 1)].concat();
                self.fit(&headed(&[open(&[], &jumps)]));
                self.fit(&headed(&[thread(&[], &jumps)]));
            }
            self.fit(&headed(&[open(&[], &[skip((3, 2))]), open(&[], &skips(count))]));
            self.fit(&headed(&[open(&[], &skips(count)), open(&[], &[skip((3, 2))])]));
        }
        for behind in behind() {
            let jumps = [skips(63), vec![jump((2, 1), 99, &[32])]].concat();
            self.fit(&headed(&[open(&[], &[skip((2, 1))]), open(&[], &jumps), behind.clone()]));
            self.fit(&headed(&[open(&[], &skips(64)), behind.clone()]));
            self.fit(&headed(&[thread(&[], &skips(63)), behind]));
        }
        for statement in [coded(8, &[]), skip((0, 1)), skip((2, 1)), coded(0, &[0])] {
            self.fit(&headed(&[open(&[], &[skips(63), vec![statement]].concat())]));
        }
    }

    /// Each fault behind one to three threads that are mended.
    fn places(&mut self) {
        for fault in faults() {
            for before in 1..4 {
                let threads =
                    [open(&[], &[skip((1, 2))]), open(&[(2, 1)], &[skip((2, 1))]), open(&[], &[lock((1, 1), 0)])];
                let mended = threads[..before].concat();
                self.fit(&sheet_of([10, 100, 9, 1], 1, &[(1, 0)], &[mended, fault.clone()]));
            }
            self.fit(&headed(&[thread(&[], &[skip((1, 2))]), fault]));
        }
    }

    /// As many changes as a sheet that reads can have, and more in sheets that do not.
    fn many(&mut self) {
        let threads = vec![open(&[(1, 0); 8], &vec![skip((2, 1)); 63]); 4];
        let most = sheet_of([10, 100, 9, 1], 0, &[(1, 0); 8], &threads);
        let (bytes, numbers) = needed(&most);
        self.add(&most, bytes, numbers);
        self.add(&most, bytes, numbers - 1);
        for count in [5, 20, 1300] {
            self.add(&headed(&vec![open(&[], &[skip((2, 1))]); count]), 80, 9);
        }
        self.add(&sheet_of(TEN, 0, &[(1, 0); 1400], &threads[..1]), 7, 20);
    }
}
