"""Tries how ./zumbeiry has its programs built, as a part of try_command.py: on a copy of the command whose rt is a stand-in
that proves nothing."""

import os

from calls import B, Call, ROOT, cannot, expect, stand_in


def try_all(folder, copy):
    """With a stand-in for rt, which copies the program instead of proving it."""
    bins = os.path.join(folder, "bins")
    os.makedirs(bins)
    source = os.path.join(copy, "crates", "label", "src", "lib.rt")
    built = os.path.join(copy, "target", "bin", "label_main")
    out = os.path.join(copy, "crates", "label_main", "out")
    os.makedirs(out)
    made = os.path.join(out, "label_main")
    real = os.path.join(ROOT, "target", "bin", "label_main")
    path = bins + os.pathsep + os.environ["PATH"]
    rt = os.path.join(bins, "rt")

    def call(path=path):
        return Call("check", "-", given=B, root=copy, folder=folder, PATH=path)

    cannot(call(path=folder), "there is no rt")
    stand_in(rt, "echo noise; echo 'rt: rules NOT PROVED'; exit 1\n")
    call().gives(2, err=["proving and building label_main", "\nrt: rules NOT PROVED\n", "'rt run' in crates/label_main ended with 1"])
    stand_in(rt, "exit 0\n")
    call().gives(2, err=["wrote no crates/label_main/out/label_main"])
    stand_in(rt, f"[ \"$*\" = run ] && [ \"$PWD\" = '{os.path.dirname(out)}' ] && echo 'rt: label proved (1 s)' && cp -p '{real}' '{made}'\n")
    call().gives(0, "0 0 2 2 3\n", err=["zumbeiry: proving and building", "\nrt: label proved (1 s)\n"])
    expect("built once", call().gives(0, "0 0 2 2 3\n").err == "")
    os.utime(source)
    call().gives(0, "0 0 2 2 3\n", err=["zumbeiry: proving and building"])
    expect("built once more", call().gives(0).err == "")
    stand_in(rt, "exit 1\n")
    os.utime(os.path.join(copy, "crates.txt"))
    call().gives(2)
    call().gives(2, err=["zumbeiry: proving and building"])
    for script, said in (
        ("exit 3\n", "ended with status 3"),
        ("kill -9 $$\n", "ended by signal 9"),
        ("echo hello\n", "did not print five numbers"),
        ("echo 99 0 0 0 0\n", "a refusal that has no words"),
    ):
        stand_in(built, script)
        cannot(call(), said)
