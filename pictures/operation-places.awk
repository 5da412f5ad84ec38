# Where the states and arrows of operation.awk stand: an arrow's path, and the place of its words.
function places() {
    place("ChipErasing", 380, 150); place("Idle", 380, 360); place("Programming", 20, 360); place("ProgramSuspended", 20, 560)
    place("Window", 740, 360); place("Erasing", 1080, 360); place("Recovering", 1095, 465)
    place("EraseSuspended Nothing", 910, 560); place("EraseSuspended Runs", 480, 560)
    place("InOneTime", 300, 690); place("OneTimeProgramming", 700, 690)
}

function place(state, x, y) { place_x[state] = x; place_y[state] = y }

function routes() {
    routed("Idle>Programming", "M380 375L215 375", 297, 368, "middle")
    routed("Programming>Idle", "M210 405L375 405", 297, 422, "middle")
    routed("Idle>Window", "M570 375L735 375", 655, 368, "middle")
    routed("Window>Idle", "M740 405L575 405", 655, 422, "middle")
    routed("Window>Window", "M790 360C780 310 880 310 870 356", 830, 312, "middle")
    routed("Window>Erasing", "M930 390L1075 390", 1003, 383, "middle")
    routed("Erasing>Erasing", "M1190 360C1180 300 1260 300 1250 356", 1290, 304, "end")
    routed("Erasing>Idle", "M1120 360C1060 250 640 250 545 355", 850, 262, "middle")
    routed("Erasing>Recovering", "M1190 420L1190 460", 1198, 445, "")
    routed("Recovering>EraseSuspended Nothing", "M1190 525C1190 560 1160 580 1105 590", 1185, 580, "")
    routed("EraseSuspended Nothing>Erasing", "M1020 560C1020 500 1050 450 1095 425", 1052, 500, "")
    routed("Window>EraseSuspended Nothing", "M850 420L940 555", 890, 500, "end")
    routed("EraseSuspended Nothing>EraseSuspended Runs", "M910 575L675 575", 792, 568, "middle")
    routed("EraseSuspended Runs>EraseSuspended Nothing", "M670 605L905 605", 792, 622, "middle")
    routed("Idle>ChipErasing", "M440 360L440 215", 432, 290, "end")
    routed("ChipErasing>Idle", "M510 210L510 355", 518, 290, "")
    routed("ChipErasing>ChipErasing", "M570 165C630 150 630 210 575 195", 626, 184, "")
    routed("ProgramSuspended>Programming", "M115 560L115 425", 123, 495, "")
    routed("Idle>InOneTime", "M400 420L400 685", 392, 520, "end")
    routed("InOneTime>Idle", "M450 690L450 425", 458, 520, "")
    routed("InOneTime>InOneTime", "M300 705C240 690 240 750 295 735", 250, 724, "end")
    routed("InOneTime>OneTimeProgramming", "M490 705L695 705", 592, 698, "middle")
    routed("OneTimeProgramming>InOneTime", "M700 735L495 735", 592, 752, "middle")
}

function routed(key, d, x, y, anchor) {
    keys[++routes_known] = key
    route[key] = d; words_x[key] = x; words_y[key] = y; words_anchor[key] = anchor
}

function draw_state(state,    x, y, p) {
    if (!(state in place_x)) die("the state " state " has no place in the picture: give it one in pictures/operation-places.awk")
    if (!(drawing[runs[state]] in figure)) die("what a microsecond of " state " draws cannot be read")
    x = place_x[state]; y = place_y[state]
    placed++
    box(x, y, 190, 60, drawing[runs[state]] == "running_current" ? "running" : "still")
    split(state, p, " ")
    words(x + 95, y + 18, "middle bold", p[1])
    if (p[2] != "") words(x + 95, y + 32, "middle small", p[2] == "Nothing" ? "Nothing inside" : "inside it Runs a program")
    words(x + 95, y + (p[2] == "" ? 34 : 44), "middle small dim", grouped(figure[drawing[runs[state]]]) " pC a " micro)
    if (told[state] != "") words(x + 95, y + (p[2] == "" ? 48 : 55), "middle small dim", told[state])
}

BEGIN {
    micro = "\302\265s"; part = "Small"; commands = "crates/plain/specs/Commands.antt"
    places(); routes()
    read_figures(); read_time(); read_writes(); read_states()
    read_variants("crates/plain/src/lib.rt", "Operation"); read_variants("crates/plain/src/lib.rt", "Inside")
    for (i = 1; i <= variants["Operation"]; i++) {
        if (!(variant["Operation", i] in has_inside)) draw_state(variant["Operation", i])
        else for (j = 1; j <= variants["Inside"]; j++) draw_state(variant["Operation", i] " " variant["Inside", j])
    }
    for (state in place_x) placed--
    if (placed) die("pictures/operation-places.awk places a state that is not declared")
    for (i = 1; i <= routes_known; i++) {
        if (!(keys[i] in cause_of)) die("the arrow " keys[i] " is drawn, and no definition has it any more")
        path(route[keys[i]], "arrow")
        words(words_x[keys[i]], words_y[keys[i]], "small " words_anchor[keys[i]], cause_of[keys[i]])
    }
    rests_on("crates/plain/specs/Cut.antt", "cut_device r = device r.meter Ground Idle (after_cut r.bits)")
    words(20, 30, "bold large", "The states of an operation")
    words(20, 50, "dim", "Each arrow has the write or the time that causes it. A cut leads from every state to Idle. A suspended program " \
        "is held by stored records alone: no arrow leads there.")
    rests_on("crates/plain/specs/Programs.antt", "barred_by OneTime = OtpLocked")
    words(20, 68, "dim", "A start may be refused instead: PROTECTED, or OTPLOCKED for a one-time word; SUSPENDED in a listed block; " \
        "RAISE; BANK. A red frame draws the running current.")
    words(20, 86, "dim", "In the one-time block 80H is SEQUENCE, so that no erase starts there; in suspension 88H is SUSPENDED.")
    words(20, 104, "dim", "Drawn from crates/plain: src/lib.rt has the states, specs/Time.antt what time does, Commands.antt what " \
        "writes do; Operations.antt, Programs.antt, Machine.antt, Cut.antt and Figures.antt the rest.")
    if (!failed) picture(1300, 780, "The states of an operation", \
        "What runs, is suspended or is entered, and the writes and times that lead from one state to another", \
        ".running { fill: #fff5f5; stroke: #c53030 } .still { fill: #ebf8ff; stroke: #2b6cb0 }")
}
