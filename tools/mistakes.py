"""The mistakes that a new user makes, each with the texts of its call: `messages.py` makes the calls.

A mistake has a name, which begins with the rule that it breaks; the command; the application; the trace, or which certificate; and the
fault file. What there is not is None.
"""

from plainly import Stop

GOOD = """PROGRAM Motor
VAR_INPUT
  S_In : SAFEBOOL;
  Ack, Run : BOOL;
END_VAR
VAR_OUTPUT
  S_Motor : SAFEBOOL;
END_VAR
VAR
  E : SF_EmergencyStop;
END_VAR
E(Activate := TRUE, S_EStopIn := S_In, Reset := Ack);
S_Motor := E.S_EStopOut AND Run;
END_PROGRAM
"""
BLOCK = """FUNCTION_BLOCK Both
VAR_INPUT A, B : SAFEBOOL; END_VAR
VAR_OUTPUT Q : SAFEBOOL; END_VAR
Q := A AND B;
END_FUNCTION_BLOCK
PROGRAM P
VAR_INPUT S_A, S_B : SAFEBOOL; END_VAR
VAR_OUTPUT S_Q : SAFEBOOL; END_VAR
VAR X : Both; END_VAR
X(A := S_A, B := S_B);
S_Q := X.Q;
END_PROGRAM
"""
TRACE = "time S_In Ack Run\n0 1 0 1\n10 1 1 1\n20 1 0 1\nrestart\n30 1 0 1\n"
FAULT = "before 3 A memory 81 8000\n"


SEVERAL = """PROGRAM P
VAR_INPUT S_1 : SAFEBOOL; Ack, Run : BOOL; ack : BOOL; END_VAR
VAR_OUTPUT S_O, S_P : SAFEBOOL; Q : INT; END_VAR
VAR E, F : SF_EmergencyStop; L : BOOL; END_VAR
E(Activate := TRUE, S_EStop := S_1, Reset := Rst);
S_O := E.S_EStopOutt AND S_X;
S_O := S_1 AND TRUE;
E(S_EStopIn := S_1, S_EStopIn := S_1);
Run := L;
END_PROGRAM
"""
BLOCKS = """FUNCTION_BLOCK Both
VAR_INPUT A, B : SAFEBOOL; END_VAR
VAR_OUTPUT Q : INT; END_VAR
Q := A AND B;
END_FUNCTION_BLOCK
FUNCTION_BLOCK both
VAR_INPUT A, B : SAFEBOOL; END_VAR
VAR_OUTPUT Q : SAFEBOOL; END_VAR
Q := A AND B;
END_FUNCTION_BLOCK
PROGRAM P
VAR_INPUT S_A, S_B : SAFEBOOL; END_VAR
VAR_OUTPUT S_Q : SAFEBOOL; END_VAR
VAR X, Y : Both; END_VAR
X(A := S_A);
X(A := S_A, B := S_A, C := S_B);
S_Q := X.R;
END_PROGRAM
"""
FLOW = """PROGRAM P
VAR_INPUT S_1 : SAFEBOOL; Ack : BOOL; END_VAR
VAR_OUTPUT S_O, S_P : SAFEBOOL; END_VAR
VAR E : SF_EmergencyStop; END_VAR
S_O := S_1 OR Ack;
E(Activate := T#1s, S_EStopIn := Ack, Reset := Ack);
S_P := S_1 AND Ack;
END_PROGRAM
"""
TIMED = """PROGRAM P
VAR_INPUT S_A : SAFEBOOL; END_VAR
VAR_OUTPUT S_Q : SAFEBOOL; END_VAR
VAR A : SF_EmergencyStop; END_VAR
A(Activate := T#1s, S_EStopIn := S_A);
S_Q := A.S_EStopOut;
END_PROGRAM
"""


def edited(text, old, new):
    """A text with one change, which has to be one."""
    if old not in text:
        raise Stop(f"there is no {old!r} to be changed")
    return text.replace(old, new, 1)


def good(old, new):
    return edited(GOOD, old, new)


def both(old, new):
    return edited(BLOCK, old, new)


def trace(old, new):
    return edited(TRACE, old, new)


CASES = [  # group, what was done, command, app, trace, faults or cert
    # F
    ("F1 small letter", "fault", GOOD, TRACE, "before 3 a memory 81 80\n"),
    ("F1 word left out", "fault", GOOD, TRACE, "before 3 A 81 80\n"),
    ("F1 odd digits", "fault", GOOD, TRACE, "before 3 A memory 81 8\n"),
    ("F1 scan 0", "fault", GOOD, TRACE, "before 0 A memory 81 80\n"),
    ("F1 no number of a scan", "fault", GOOD, TRACE, "before x A memory 81 80\n"),
    ("F1 another region", "fault", GOOD, TRACE, "before 3 A cells 81 80\n"),
    ("F2 scans", "fault", GOOD, TRACE, "before 3 A memory 81 80\nbefore 2 A memory 81 80\n"),
    ("F2 turns", "fault", GOOD, TRACE, "before 3 turn 5 A memory 81 80\nbefore 3 A memory 81 80\n"),
    ("F3 offset", "fault", GOOD, TRACE, "before 3 A memory 8100 80\n"),
    ("F3 length", "fault", GOOD, TRACE, "before 3 B code 60 " + "00" * 200 + "\n"),
    ("F4 two channels", "fault", GOOD, TRACE, "before 2 A memory 81 80\nbefore 3 B memory 81 80\n"),
    ("F4 heal, dirty", "heal", GOOD, TRACE, "before 2 A memory 0 80\nbefore 3 B memory 0 80\n"),
    ("F5 1,001 lines", "fault", GOOD, TRACE, "before 1 A memory 81 80\n" * 1001),
    ("F5 by comments", "fault", GOOD, TRACE, "# nothing\n" * 1001),
    # T
    ("T1 Time", "run", GOOD, trace("time", "Time"), None),
    ("T1 empty trace", "run", GOOD, "", None),
    ("T2 an output", "run", GOOD, trace("Run\n", "Run S_Motor\n"), None),
    ("T2 commas", "run", GOOD, "time,S_In,Ack,Run\n0,1,0,1\n", None),
    ("T3 input left out", "run", GOOD, "time S_In Ack\n0 1 0\n", None),
    ("T3 input twice", "run", GOOD, "time S_In Ack Ack\n0 1 0 1\n", None),
    ("T4 too few", "run", GOOD, trace("10 1 1 1", "10 1 1"), None),
    ("T4 too many", "run", GOOD, trace("10 1 1 1", "10 1 1 1 0"), None),
    ("T4 Restart", "run", GOOD, trace("restart", "Restart"), None),
    ("T4 RESTART", "run", GOOD, trace("restart", "RESTART"), None),
    ("T5 TRUE", "run", GOOD, trace("10 1 1 1", "10 TRUE 1 1"), None),
    ("T5 x", "run", GOOD, trace("10 1 1 1", "10 1 1 x"), None),
    ("T6 ms", "run", GOOD, trace("10 1 1 1", "10ms 1 1 1"), None),
    ("T6 fraction", "run", GOOD, trace("10 1 1 1", "10.5 1 1 1"), None),
    ("T7 earlier", "run", GOOD, trace("20 1 0 1", "5 1 0 1"), None),
    ("T7 behind restart", "run", GOOD, trace("30 1 0 1", "0 1 0 1"), None),
    # trips
    ("trip, output", "fault", GOOD, TRACE, "before 2 A memory 81 8000\n"),
    ("trip, code", "fault", GOOD, "time S_In Ack Run\n0 1 0 0\n10 1 0 0\n", "before 2 A memory 81 8000\n"),
    ("trip, trap A", "fault", GOOD, TRACE, "before 2 A code 0 FF\n"),
    ("trip, trap B", "fault", GOOD, TRACE, "before 2 B code 0 00\n"),
    # P
    ("P1 PROGRAM Motor;", "check", good("PROGRAM Motor", "PROGRAM Motor;"), None, None),
    ("P1 S_In, S_B;", "check", good("S_In : SAFEBOOL;", "S_In, S_B;"), None, None),
    ("P1 VAR E;", "check", good("E : SF_EmergencyStop;", "E;"), None, None),
    ("P1 : E..", "check", good("E : SF_EmergencyStop;", "SF_EmergencyStop : E..;"), None, None),
    ("P1 ,)", "check", good("Reset := Ack)", "Reset := Ack,)"), None, None),
    ("&&", "check", good("AND", "&&"), None, None),
    ("||", "check", good("AND", "||"), None, None),
    ("P1 no END_FUNCTION_BLOCK", "check", both("END_FUNCTION_BLOCK\n", ""), None, None),
    ("P1 END_FUNCTION", "check", both("END_FUNCTION_BLOCK\n", "END_FUNCTION\n"), None, None),
    ("P1 END_VARS", "check", good("END_VAR", "END_VARS"), None, None),
    ("P1 no END_VAR", "check", good("END_VAR\n", ""), None, None),
    ("P1 VAR_GLOBAL", "check", good("\nVAR\n", "\nVAR_GLOBAL\n"), None, None),
    ("P1 VAR_IN_OUT", "check", both("VAR_INPUT A", "VAR_IN_OUT A"), None, None),
    ("P1 positional", "check", good("E(Activate := TRUE, S_EStopIn := S_In, Reset := Ack)", "E(TRUE, S_In, Ack)"), None, None),
    ("P1 positional signals", "check", good("E(Activate := TRUE, S_EStopIn := S_In, Reset := Ack)", "E(S_In, Ack)"), None, None),
    ("P1 output pin =>", "check", good("Reset := Ack)", "Reset := Ack, S_EStopOut => S_Motor)"), None, None),
    ("P1 keyword as a name", "check", good("Ack, Run", "Ack, AND"), None, None),
    ("P1 keyword as instance", "check", good("E : SF", "VAR : SF"), None, None),
    ("P1 NOT", "check", good("AND Run", "AND NOT Run"), None, None),
    ("P1 IF", "check", good("S_Motor := E.S_EStopOut AND Run;", "IF Run THEN S_Motor := E.S_EStopOut; END_IF"), None, None),
    ("P1 =", "check", good("S_Motor :=", "S_Motor ="), None, None),
    ("P1 no semicolon", "check", good("Ack);", "Ack)"), None, None),
    ("P1 ;;", "check", good("Ack);", "Ack);;"), None, None),
    ("P1 no END_PROGRAM", "check", good("END_PROGRAM\n", ""), None, None),
    ("P1 behind the end", "check", GOOD + "x\n", None, None),
    ("P1 initial value", "check", good("Ack, Run : BOOL;", "Ack, Run : BOOL := FALSE;"), None, None),
    ("P1 empty file", "check", "", None, None),
    ("P1 blank file", "check", "\n\n", None, None),
    ("P2 brackets", "check", good("AND Run", "AND " + "(" * 17 + "Run" + ")" * 17), None, None),
    ("P2 in an argument", "check", good("S_EStopIn := S_In", "S_EStopIn := " + "(" * 20 + "S_In" + ")" * 20), None, None),
    # L
    ("L1 zero width", "check", good("S_Motor :=", "S_Motor\u200b :="), None, None),
    ("L1 bidirectional", "check", good("S_Motor :=", "S_Motor\u202e :="), None, None),
    ("L1 hard blank", "check", good("S_Motor :=", "S_Motor\u00a0:="), None, None),
    ("L1 typographic", "check", good("AND Run", "AND \u201cRun\u201d"), None, None),
    ("L1 umlaut", "check", good("S_Motor :=", "S_M\u00f6tor :="), None, None),
    ("L1 <", "check", good("AND Run", "< Run"), None, None),
    ("L2 comment", "check", good("END_PROGRAM", "(* end END_PROGRAM"), None, None),
    ("L2 nested", "check", good("END_PROGRAM", "(* a (* b END_PROGRAM"), None, None),
    ("L3 T#100", "check", good("S_EStopIn", "MonitoringTime := T#100, S_EStopIn"), None, None),
    ("L3 T#50d", "check", good("S_EStopIn", "MonitoringTime := T#50d, S_EStopIn"), None, None),
    ("L3 T#100us", "check", good("S_EStopIn", "MonitoringTime := T#100us, S_EStopIn"), None, None),
    ("L3 T#1.5s", "check", good("S_EStopIn", "MonitoringTime := T#1.5s, S_EStopIn"), None, None),
    ("L3 T#100ms1s", "check", good("S_EStopIn", "MonitoringTime := T#100ms1s, S_EStopIn"), None, None),
    ("L4 65 bytes", "check", GOOD.replace("S_Motor", "S_" + "M" * 63), None, None),
    ("L4 instance", "check", GOOD.replace("E(", "E" * 70 + "("), None, None),
    ("L5 too long", "check", GOOD + " " * 1048577, None, None),
    ("UTF-16", "check", GOOD.encode("utf-16"), None, None),
    ("a trace as APP", "check", TRACE, None, None),
    # N
    ("N1 twice", "check", good("Ack, Run", "Ack, ACK, Run"), None, None),
    ("N1 signal and instance", "check", good("E : SF", "Run : SF"), None, None),
    ("N2 misspelt", "check", good("AND Run", "AND Rum"), None, None),
    ("N2 target", "check", good("S_Motor :=", "S_Moter :="), None, None),
    ("N2 S_Motor := E AND Run", "check", good("E.S_EStopOut AND", "E AND"), None, None),
    ("N3 INT", "check", good("Run : BOOL", "Run : INT"), None, None),
    ("N3 block as input", "check", good("S_In : SAFEBOOL", "S_In : SF_EDM"), None, None),
    ("N3 misspelt block", "check", good("SF_EmergencyStop", "SF_Emergency_Stop"), None, None),
    ("N4 unknown pin", "check", good("S_EStopIn :=", "S_EStop :="), None, None),
    ("N4 input read", "check", good("E.S_EStopOut", "E.S_EStopIn"), None, None),
    ("N4 DiagCode", "check", good("E.S_EStopOut", "E.DiagCode"), None, None),
    ("N4 output in a call", "check", good("Reset := Ack", "Reset := Ack, S_EStopOut := S_Motor"), None, None),
    ("N5 twice", "check", good("Reset := Ack", "Reset := Ack, Reset := Ack"), None, None),
    ("N5 other case", "check", good("Reset := Ack", "Reset := Ack, RESET := Run"), None, None),
    ("N6 input assigned", "check", good("S_Motor :=", "Run := Ack; S_Motor :="), None, None),
    ("N6 pin assigned", "check", good("S_Motor :=", "E.S_EStopOut := S_In; S_Motor :="), None, None),
    ("N7 twice", "check", good("END_PROGRAM", "S_Motor := S_In;\nEND_PROGRAM"), None, None),
    ("N8 output", "check", good("S_Motor : SAFEBOOL", "S_Motor, S_Lamp : SAFEBOOL"), None, None),
    ("N8 local", "check", good("AND Run", "AND L").replace("E : SF_EmergencyStop;", "E : SF_EmergencyStop; L : BOOL;"), None, None),
    ("N9 called twice", "check", good("S_Motor :=", "E(S_EStopIn := S_In); S_Motor :="), None, None),
    ("N10 never called", "check", good("E : SF_EmergencyStop;", "E : SF_EmergencyStop; D : SF_EDM;"), None, None),
    ("N10 read alone", "check", good("E(Activate := TRUE, S_EStopIn := S_In, Reset := Ack);\n", ""), None, None),
    ("N11 inputs", "check", good("Ack, Run", "Ack, Run, " + ", ".join(f"I{i}" for i in range(520))), None, None),
    ("N11 instances", "check", good("E : SF_EmergencyStop;", "E, " + ", ".join(f"E{i}" for i in range(401)) + " : SF_EmergencyStop;").replace("E(", "".join(f"E{i}(S_EStopIn := S_In);\n" for i in range(401)) + "E("), None, None),
    ("N12 S_Motor := TRUE", "check", good("E.S_EStopOut AND Run", "TRUE"), None, None),
    ("N12 AND TRUE", "check", good("AND Run", "AND TRUE"), None, None),
    ("N12 pin of your own block", "check", both("B := S_B", "B := TRUE"), None, None),
    # B
    ("B1 name of a block", "check", both("FUNCTION_BLOCK Both", "FUNCTION_BLOCK SF_EDM").replace("X : Both", "X : SF_EDM"), None, None),
    ("B1 twice", "check", BLOCK[:BLOCK.index("PROGRAM P")] + BLOCK, None, None),
    ("B2 type of an input", "check", both("A, B : SAFEBOOL", "A, B : INT"), None, None),
    ("B2 later block", "check", both("END_VAR\nQ :=", "END_VAR VAR Z : Later; END_VAR\nQ :=").replace("PROGRAM P", BLOCK[:BLOCK.index("PROGRAM P")].replace("Both", "Later") + "PROGRAM P"), None, None),
    ("N3 no such block", "check", both("END_VAR\nQ :=", "END_VAR VAR Z : Later; END_VAR\nQ :="), None, None),
    ("B3 pin left out", "check", both(", B := S_B", ""), None, None),
    ("B3 no such pin", "check", both("B := S_B", "C := S_B"), None, None),
    ("B3 no such output", "check", both("X.Q", "X.R"), None, None),
    ("B4 copies", "check", BLOCK[:BLOCK.index("PROGRAM P")] + "".join(f"FUNCTION_BLOCK F{i} VAR_INPUT A : SAFEBOOL; END_VAR VAR_OUTPUT Q : SAFEBOOL; END_VAR VAR X, Y, Z : {'Both' if i == 0 else f'F{i-1}'}; END_VAR\nX(A := A{', B := A' if i == 0 else ''}); Y(A := A{', B := A' if i == 0 else ''}); Z(A := A{', B := A' if i == 0 else ''}); Q := X.Q;\nEND_FUNCTION_BLOCK\n" for i in range(8)) + "PROGRAM P VAR_INPUT S_A : SAFEBOOL; END_VAR VAR_OUTPUT S_Q : SAFEBOOL; END_VAR VAR X : F7; END_VAR\nX(A := S_A); S_Q := X.Q;\nEND_PROGRAM\n", None, None),
    ("B4 65 blocks", "check", "".join(BLOCK[:BLOCK.index("PROGRAM P")].replace("Both", f"Both{i}") for i in range(65)) + BLOCK[BLOCK.index("PROGRAM P"):].replace("Both", "Both0"), None, None),
    ("B5 not called", "check", both("X(A := S_A, B := S_B);\n", ""), None, None),
    ("B5 called twice", "check", both("S_Q := X", "X(A := S_A, B := S_B); S_Q := X"), None, None),
    # S
    ("S1 OR with BOOL", "check", good("AND Run", "OR Run"), None, None),
    ("S1 a BOOL alone", "check", good("E.S_EStopOut AND Run", "Run"), None, None),
    ("S2 BOOL at a pin", "check", good("S_EStopIn := S_In", "S_EStopIn := Run"), None, None),
    ("S2 an AND of BOOLs", "check", good("S_EStopIn := S_In", "S_EStopIn := Run AND Ack"), None, None),
    ("S3 time", "check", good("S_EStopIn := S_In", "S_EStopIn := T#1s"), None, None),
    ("S3 at Reset", "check", good("Reset := Ack", "Reset := T#10ms"), None, None),
    ("S4 a signal", "check", "PROGRAM P VAR_INPUT S_A, S_B : SAFEBOOL; END_VAR VAR_OUTPUT S_Q : SAFEBOOL; END_VAR VAR A : SF_Antivalent; END_VAR\nA(Activate := TRUE, S_ChannelNC := S_A, S_ChannelNO := S_B, DiscrepancyTime := S_A);\nS_Q := A.S_AntivalentOut;\nEND_PROGRAM\n", None, None),
    ("S4 TRUE", "check", "PROGRAM P VAR_INPUT S_A, S_B : SAFEBOOL; END_VAR VAR_OUTPUT S_Q : SAFEBOOL; END_VAR VAR A : SF_Antivalent; END_VAR\nA(Activate := TRUE, S_ChannelNC := S_A, S_ChannelNO := S_B, DiscrepancyTime := TRUE);\nS_Q := A.S_AntivalentOut;\nEND_PROGRAM\n", None, None),
    ("M1", "demand", "PROGRAM Chain\nVAR_INPUT S_A : SAFEBOOL; END_VAR\nVAR_OUTPUT S_O : SAFEBOOL; END_VAR\nVAR " + ", ".join(f"L{i}" for i in range(11)) + " : SAFEBOOL; END_VAR\nL0 := S_A;\n" + "".join(f"L{i} := L{i-1} AND L{i-1};\n" for i in range(1, 11)) + "S_O := L10;\nEND_PROGRAM\n", None, None),
    # C and O
    ("C1 small letters", "verify", GOOD, "cert:lower", None),
    ("C1 empty line", "verify", GOOD, "cert:blank", None),
    ("O of another app", "verify", BLOCK, "cert:good", None),
    ("O4 lines left out", "verify", GOOD, "cert:head", None),
    # files
    ("no file", "run", None, None, None),
    ("a folder", "folder", None, None, None),

    # the rules that no mistake above breaks
    ("L1 $", "check", good("AND Run", "$ Run"), None, None),
    ("L3 T#1,5s", "check", good("S_EStopIn", "MonitoringTime := T#1,5s, S_EStopIn"), None, None),
    ("L3 TIME#7", "check", good("S_EStopIn", "MonitoringTime := TIME#7, S_EStopIn"), None, None),
    ("L3 T#3ns", "check", good("S_EStopIn", "MonitoringTime := T#3ns, S_EStopIn"), None, None),
    ("L5 by comments", "check", GOOD + "// nothing\n" * 100000, None, None),
    ("L3 TIME#50d", "check", good("S_EStopIn", "MonitoringTime := TIME#50d, S_EStopIn"), None, None),
    ("C2 40,001 lines", "verify", GOOD, "cert:long", None),
    ("O1 no such node", "verify", GOOD, "cert:node", None),
    ("O2 no such premise", "verify", GOOD, "cert:premise", None),
    ("O3 another rule", "verify", GOOD, "cert:rule", None),
    ("O5 a TIME literal at a Boolean pin", "verify", TIMED, "cert:literal", None),
    ("C1 lines end with CR LF", "verify", GOOD, "cert:crlf", None),
    ("C1 an application", "verify", GOOD, "cert:application", None),
    ("T8 a long line", "run", GOOD, TRACE + "#" * 65537 + "\n", None),
    ("T9 a large file", "run", GOOD, TRACE + ("#" * 65535 + "\n") * 1024, None),
    # texts of another language or another kind
    ("P1 a section alone", "check", "VAR_INPUT S_1 : SAFEBOOL; END_VAR\n", None, None),
    ("P1 a section behind a comment", "check", "(* a press *)\nVAR_INPUT S_1 : SAFEBOOL; END_VAR\n", None, None),
    ("P1 a header of a trace", "check", "time S_In Ack Run\n", None, None),
    ("P1 a second program", "check", GOOD + "PROGRAM Q END_PROGRAM\n", None, None),
    ("P1 no value", "check", good("E.S_EStopOut AND Run", ""), None, None),
    ("P1 no value behind AND", "check", good("AND Run", "AND"), None, None),
    ("P1 a bracket left open", "check", good("E.S_EStopOut AND Run", "(E.S_EStopOut AND Run"), None, None),
    ("P1 a bracket closed twice", "check", good("AND Run", "AND Run)"), None, None),
    ("P1 the text ends in a value", "check", GOOD[:GOOD.index(" Run;\nEND_PROGRAM")], None, None),
    ("P1 no operator", "check", good("E.S_EStopOut AND Run", "E.S_EStopOut Run"), None, None),
    ("P1 no operator behind a bracket", "check", good("E.S_EStopOut AND Run", "(E.S_EStopOut) Run"), None, None),
    ("P1 OR as a local", "check", good("E : SF", "Or : BOOL; E : SF"), None, None),
    ("P1 a keyword behind a dot", "check", good("E.S_EStopOut", "E.VAR"), None, None),
    ("P1 XOR", "check", good("AND Run", "XOR Run"), None, None),
    ("L1 !", "check", good("AND Run", "AND !Run"), None, None),
    ("P1 VAR_GLOBAL in a line", "check", good("VAR_INPUT\n", "VAR_GLOBAL X : BOOL; END_VAR VAR_INPUT\n"), None, None),
    ("P1 VAR_TEMP", "check", good("\nVAR\n", "\nVAR_TEMP\n"), None, None),
    ("P1 VAR CONSTANT", "check", good("\nVAR\n", "\nVAR CONSTANT\n"), None, None),
    ("N3 TON", "check", good("E : SF", "T : TON; E : SF"), None, None),
    ("N3 in VAR", "check", good("E : SF", "T : SF_MutingPar; E : SF"), None, None),
    ("L1 quotation marks", "check", good("S_EStopIn", "MonitoringTime := \"T#5s\", S_EStopIn"), None, None),
    ("L1 +", "check", good("AND Run", "+ Run"), None, None),
    ("L1 a digit", "check", good("E.S_EStopOut AND Run", "1"), None, None),
    ("L1 an address", "check", good("S_In :", "S_In AT %IX0.0 :"), None, None),
    ("L1 # as a comment", "check", "# a comment\n" + GOOD, None, None),
    ("L1 byte order mark", "check", "\ufeff" + GOOD, None, None),
    ("L1 a dash", "check", good("S_Motor :=", "S_Motor \u2013"), None, None),
    ("T1 UTF-16", "run", GOOD, TRACE.encode("utf-16"), None),
    ("T1 an application", "run", GOOD, GOOD, None),
    ("T1 a fault file", "run", GOOD, FAULT, None),
    ("T2 commas behind names", "run", GOOD, "time S_In, Ack Run\n0 1 0 1\n", None),
    ("T3 twice and none missing", "run", GOOD, "time S_In Ack run RUN\n0 1 0 1 1\n", None),
    ("T4 a comment behind values", "run", GOOD, trace("10 1 1 1", "10 1 1 1 # a"), None),
    ("T5 CR", "run", GOOD, "time S_In Ack Run\r10 1 1 1\r", None),
    ("T5 a line ends with CR", "run", GOOD, "time S_In Ack Run\n10 1 1 1\r20 1 1 1\r", None),
    ("T6 a TIME literal", "run", GOOD, trace("10 1 1 1", "T#10ms 1 1 1"), None),
    ("T6 below 0", "run", GOOD, trace("10 1 1 1", "-10 1 1 1"), None),
    ("T6 too large", "run", GOOD, trace("10 1 1 1", "4294967296 1 1 1"), None),
    ("T6 a word", "run", GOOD, trace("10 1 1 1", "then 1 1 1"), None),
    ("F1 a trace", "fault", GOOD, TRACE, TRACE),
    ("F1 channel C", "fault", GOOD, TRACE, "before 1 C memory 0 00\n"),
    ("F1 no number of a turn", "fault", GOOD, TRACE, "before 1 turn A code 0 00\n"),
    ("F1 Turn", "fault", GOOD, TRACE, "before 1 Turn 2 A code 0 00\n"),
    ("F1 no bytes", "fault", GOOD, TRACE, "before 1 A code 0\n"),
    ("F1 a comment behind bytes", "fault", GOOD, TRACE, "before 1 A code 0 00 # a\n"),
    ("F1 no text", "fault", GOOD, TRACE, "before 1 \x1b[2J\n"),
    ("F2 behind a comment", "fault", GOOD, TRACE, "before 2 A code 0 00\n# a\nbefore 1 A code 0 00\n"),
    ("F3 with a turn", "vote", GOOD, TRACE, "before 3 turn 2 C memory 5000 80\n"),
    ("F4 vote, two seats", "vote", GOOD, TRACE, "before 2 A memory 0 80\nbefore 3 C memory 0 80\n"),
    ("F4 heal, by turns", "heal", GOOD, TRACE, "before 1 A memory 81 80\n# a\nbefore 2 turn 2 B memory 0 00\nbefore 2 turn 3 C memory 0 00\n"),
    # trips
    ("trip, Ready", "fault", GOOD, TRACE, "before 2 A code 31 05\n"),
    ("trip, Error", "fault", GOOD, TRACE, "before 2 A memory 82 02\n"),
    ("trip, trap 2", "fault", GOOD, TRACE, "before 2 B code 10 FF\n"),
    ("trip, trap 3", "fault", GOOD, TRACE, "before 2 A code 0 05\n"),
    ("trip, trap 4", "fault", GOOD, TRACE, "before 2 A code 1 FF\n"),
    ("trip, trap 5", "fault", GOOD, TRACE, "before 2 A code 3 FF\n"),
    ("trip, trap 6", "fault", GOOD, TRACE, "before 2 A code 13 FF\n"),
    ("trip, trap 7", "fault", GOOD, TRACE, "before 2 A memory 81 02\n"),
    ("trip, not ended", "fault", GOOD, TRACE, "before 2 turn 11 A memory 3 02\n"),
    ("trip, no report", "fault", GOOD, TRACE, "before 2 turn 12 A memory 79 02\n"),
    ("trip, trap 0", "fault", GOOD, TRACE, "before 2 turn 1 B memory 4 02\n"),
    ("trip, trap 0 later", "fault", GOOD, TRACE, "before 2 turn 2 B memory 4 02\n"),
    ("trip, trap 2 of A", "fault", GOOD, TRACE, "before 2 A code 32 01\n"),
    ("trip, trap 3 of B", "fault", GOOD, TRACE, "before 2 B code 3 01\n"),
    ("trip, trap 4 of B", "fault", GOOD, TRACE, "before 2 turn 1 B memory 61 02\n"),
    ("trip, trap 5 of B", "fault", GOOD, TRACE, "before 2 B code 4 01\n"),
    ("trip, trap 6 of B", "fault", GOOD, TRACE, "before 2 B code 1 01\n"),
    ("trip, trap 7 of B", "fault", GOOD, TRACE, "before 2 turn 1 B memory 68 02\n"),
    ("trip, not ended, from an earlier turn", "fault", GOOD, TRACE, "before 2 turn 4 A memory 3 02\n"),
    ("trip, no report, from a later turn", "fault", GOOD, TRACE, "before 2 turn 13 A memory 79 02\n"),
    # applications with more than one mistake
    ("N several", "check", SEVERAL, None, None),
    ("N over ten", "check", good("AND Run;\n", "AND Run AND " + " AND ".join(f"X{i}" for i in range(3)) + ";\n" + "".join(f"S_{i} := Run;\n" for i in range(14))), None, None),
    ("N in each copy", "check", both("A AND B", "A AND Z"), None, None),
    ("B several", "check", BLOCKS, None, None),
    ("S several", "check", FLOW, None, None),
    ("S1 an instance's Ready", "check", good("E.S_EStopOut AND Run", "(E.S_EStopOut AND Run) OR run OR E.Ready"), None, None),
    # two ways for what has one above
    ("N12 a TIME literal", "check", good("AND Run", "AND T#5s"), None, None),
    ("N12 in brackets at a pin", "check", good("Activate := TRUE", "Activate := (TRUE)"), None, None),
    ("N12 FALSE at a pin of your own block", "check", both("A := S_A", "A := FALSE"), None, None),
    ("N2 called", "check", good("S_Motor :=", "F(Activate := TRUE);\nS_Motor :="), None, None),
    ("N2 before a dot", "check", good("E.S_EStopOut", "F.S_EStopOut"), None, None),
    ("N2 within a block", "check", both("A AND B", "A AND S_A"), None, None),
    ("N2 an instance of your own block as a value", "check", both("S_Q := X.Q", "S_Q := X"), None, None),
    ("N4 a signal called", "check", good("S_Motor :=", "Run(Activate := TRUE);\nS_Motor :="), None, None),
    ("N4 E alone assigned", "check", good("E.S_EStopOut AND Run", "E"), None, None),
    ("B3 two pins left out", "check", both("X(A := S_A, B := S_B)", "X()"), None, None),
    ("B3 a pin twice", "check", both("B := S_B", "A := S_B"), None, None),
    ("B3 a pin assigned", "check", both("S_Q := X.Q", "X.A := S_A; S_Q := X.Q"), None, None),
    ("P1 FUNCTION", "check", "FUNCTION F : BOOL\nEND_FUNCTION\n" + GOOD, None, None),
    ("P1 no END_FUNCTION_BLOCK before a block", "check", BLOCK[:BLOCK.index("PROGRAM P")].replace("END_FUNCTION_BLOCK\n", "") + BLOCK.replace("Both", "Other"), None, None),
    ("P1 a name behind END_VAR;", "check", good("END_VAR\nVAR_OUTPUT", "END_VAR;\nVAR_OUTPUT"), None, None),
    ("P1 a comma ends names", "check", good("Ack, Run :", "Ack, Run, :"), None, None),
    ("P1 : behind :", "check", good("S_In : SAFEBOOL", "S_In :: SAFEBOOL"), None, None),
    ("P1 no type", "check", good("S_In : SAFEBOOL", "S_In :"), None, None),
    ("P1 ,, in a call", "check", good("S_In, Reset", "S_In,, Reset"), None, None),
    ("P1 AND AND", "check", good("AND Run", "AND AND Run"), None, None),
    ("P1 AND &", "check", good("AND Run", "& & Run"), None, None),
    ("P1 END_VARIABLE", "check", good("END_VAR", "END_VARIABLE"), None, None),
    ("P1 PROGRAM as a name", "check", good("Ack, Run", "PROGRAM, Run"), None, None),
    ("P1 no name of the program", "check", good("PROGRAM Motor", "PROGRAM"), None, None),
    ("P1 comments alone", "check", "(* nothing yet *)\n", None, None),
    ("L1 zero width joiner", "check", good("Run :", "Run\u200d :"), None, None),
    ("L1 a mark of direction", "check", good("AND Run", "AND \u2066Run"), None, None),
    ("N11 outputs", "check", good("S_Motor : SAFEBOOL;", "S_Motor : SAFEBOOL; " + ", ".join(f"O{i}" for i in range(512)) + " : BOOL;").replace("END_PROGRAM", "".join(f"O{i} := Run;\n" for i in range(512)) + "END_PROGRAM"), None, None),
    ("N11 signals", "check", GOOD.replace("  E : SF_EmergencyStop;", "  E : SF_EmergencyStop; " + ", ".join(f"x{i}" for i in range(3995)) + " : BOOL;"), None, None),
    ("B4 names", "check", GOOD.replace("  E : SF_EmergencyStop;", "  E : SF_EmergencyStop; " + ", ".join(f"x{i}" for i in range(3997)) + " : BOOL;"), None, None),
    ("N11 nodes", "check", good("AND Run", "AND " + " AND ".join(["Run"] * 20000)), None, None),
    ("N11 two limits", "check", good("Ack, Run", "Ack, Run, " + ", ".join(f"I{i}" for i in range(4000))), None, None),
    # files
    ("a pipe", "pipe", GOOD, None, None),
    ("a read that fails", "unread", None, None, None),
    ("note 1 and 7: nothing and FALSE at Activate; a signal is something", "check", """PROGRAM P VAR_INPUT S_A, S_B : SAFEBOOL; On : BOOL; END_VAR VAR_OUTPUT S_O, S_P, S_Q : SAFEBOOL; END_VAR
VAR One, Two, Three : SF_TwoHandControlTypeII; END_VAR
One(S_Button1 := S_A, S_Button2 := S_B);
Two(Activate := FALSE, S_Button1 := S_A, S_Button2 := S_B);
Three(Activate := On, S_Button1 := S_A, S_Button2 := S_B);
S_O := One.S_TwoHandOut; S_P := Two.S_TwoHandOut; S_Q := Three.S_TwoHandOut;
END_PROGRAM""", None, None),
    ("note 2 and 8: nothing and 0 ms at a TIME pin", "check", """PROGRAM P VAR_INPUT S_A, S_B : SAFEBOOL; END_VAR VAR_OUTPUT S_O, S_P : SAFEBOOL; END_VAR
VAR One, Two : SF_Equivalent; END_VAR
One(Activate := TRUE, S_ChannelA := S_A, S_ChannelB := S_B);
Two(Activate := TRUE, S_ChannelA := S_A, S_ChannelB := S_B, DiscrepancyTime := T#0ms);
S_O := One.S_EquivalentOut; S_P := Two.S_EquivalentOut;
END_PROGRAM""", None, None),
    ("note 3: an output of an instance, a local and an output that a step reads before they are drive", "check", """PROGRAM P VAR_INPUT S_A, S_B : SAFEBOOL; END_VAR VAR_OUTPUT S_O, S_P, S_Q : SAFEBOOL; END_VAR
VAR S_L : SAFEBOOL; Hands : SF_TwoHandControlTypeII; END_VAR
S_O := Hands.S_TwoHandOut AND S_L;
S_P := S_Q AND S_L;
Hands(Activate := S_P, S_Button1 := S_A, S_Button2 := S_B);
S_L := S_A;
S_Q := Hands.S_TwoHandOut;
END_PROGRAM""", None, None),
    ("note a step that reads what it drives itself, as one that holds itself, is meant so", "check", """PROGRAM P VAR_INPUT S_A, S_B : SAFEBOOL; END_VAR VAR_OUTPUT S_O : SAFEBOOL; END_VAR
VAR Hands : SF_TwoHandControlTypeII; END_VAR
Hands(Activate := TRUE, S_Button1 := S_A, S_Button2 := S_B AND (S_A OR Hands.S_TwoHandOut));
S_O := (S_O OR Hands.S_TwoHandOut) AND S_A;
END_PROGRAM""", None, None),
    ("note 4: an input that nothing reads; one that is read at a pin alone is read", "check", """PROGRAM P VAR_INPUT S_A, S_B : SAFEBOOL; Ack : BOOL; END_VAR VAR_OUTPUT S_O : SAFEBOOL; END_VAR
VAR Hands : SF_TwoHandControlTypeII; END_VAR
Hands(Activate := TRUE, S_Button1 := S_A, S_Button2 := S_B);
S_O := Hands.S_TwoHandOut;
END_PROGRAM""", None, None),
    ("note 5: an instance that is read by its own call alone; one of which Ready alone is read is rea", "check", """PROGRAM P VAR_INPUT S_A, S_B : SAFEBOOL; END_VAR VAR_OUTPUT S_O : SAFEBOOL; Lamp : BOOL; END_VAR
VAR One, Two : SF_TwoHandControlTypeII; END_VAR
One(Activate := TRUE, S_Button1 := S_A AND One.S_TwoHandOut, S_Button2 := S_B);
Two(Activate := TRUE, S_Button1 := S_A, S_Button2 := S_B);
S_O := S_A; Lamp := Two.Ready;
END_PROGRAM""", None, None),
    ("note 6: TRUE at the pins of a restart; FALSE and a signal are no restart by itself", "check", """PROGRAM P VAR_INPUT S_A : SAFEBOOL; Ack : BOOL; END_VAR VAR_OUTPUT S_O, S_P : SAFEBOOL; END_VAR
VAR One, Two : SF_EmergencyStop; END_VAR
One(Activate := TRUE, S_EStopIn := S_A, S_StartReset := TRUE, S_AutoReset := TRUE, Reset := Ack);
Two(Activate := TRUE, S_EStopIn := S_A, S_StartReset := FALSE, S_AutoReset := S_A, Reset := Ack);
S_O := One.S_EStopOut; S_P := Two.S_EStopOut;
END_PROGRAM""", None, None),
    ("note 6: a block that hands on is not noted behind one that asks for a reset, and before it it i", "check", """PROGRAM P VAR_INPUT S_A, S_B : SAFEBOOL; Ack, Run : BOOL; END_VAR VAR_OUTPUT S_O : SAFEBOOL; END_VAR
VAR One, Two : SF_OutControl; Stop : SF_EmergencyStop; END_VAR
One(Activate := TRUE, S_SafeControl := S_A, ProcessControl := Run, S_StartReset := TRUE, S_AutoReset := TRUE);
Stop(Activate := TRUE, S_EStopIn := S_B, Reset := Ack);
Two(Activate := TRUE, S_SafeControl := Stop.S_EStopOut, ProcessControl := Run, S_StartReset := TRUE, S_AutoReset := TRUE);
S_O := One.S_OutControl AND Two.S_OutControl;
END_PROGRAM""", None, None),
    ("note 9 to 11: TRUE at Reset, one signal at both channels, and nothing that ever enables; feedba", "check", """PROGRAM P VAR_INPUT S_A, S_B : SAFEBOOL; Ack : BOOL; END_VAR VAR_OUTPUT S_O : SAFEBOOL; END_VAR
VAR Stop, Free : SF_EmergencyStop; Pair : SF_Equivalent; Edm : SF_EDM; END_VAR
Stop(Activate := TRUE, S_EStopIn := S_A, Reset := TRUE);
Free(Activate := TRUE, S_EStopIn := S_A);
Pair(Activate := TRUE, S_ChannelA := S_B, S_ChannelB := S_B, DiscrepancyTime := T#10ms);
Edm(Activate := TRUE, S_OutControl := Pair.S_EquivalentOut, S_EDM1 := S_A, S_EDM2 := S_A, MonitoringTime := T#10ms, Reset := Ack);
S_O := Stop.S_EStopOut AND Free.S_EStopOut AND Edm.S_EDM_Out;
END_PROGRAM""", None, None),
    ("note 12 and 13: a NOT that a local loses, and the local itself is read; a local that nothing re", "check", """PROGRAM P VAR_INPUT S_A, S_B : SAFEBOOL; END_VAR VAR_OUTPUT S_O : SAFEBOOL; END_VAR
VAR S_L, S_M : SAFEBOOL; One, Two : SF_Antivalent; END_VAR
S_L := S_B;
S_M := S_B;
One(Activate := TRUE, S_ChannelNC := S_A, S_ChannelNO := S_L, DiscrepancyTime := T#10ms);
Two(Activate := TRUE, S_ChannelNC := S_A, S_ChannelNO := S_B, DiscrepancyTime := T#10ms);
S_O := One.S_AntivalentOut AND Two.S_AntivalentOut;
END_PROGRAM""", None, None),
    ("note several: those of calls in the order of the text, and then those of signals", "check", """PROGRAM P VAR_INPUT S_A, S_B : SAFEBOOL; Ack : BOOL; END_VAR VAR_OUTPUT S_O : SAFEBOOL; END_VAR
VAR Guard : SF_GuardMonitoring; Pair : SF_Equivalent; END_VAR
S_O := Guard.S_GuardMonitoring;
Pair(Activate := TRUE, S_ChannelA := S_A, S_ChannelB := S_B);
Guard(S_GuardSwitch1 := S_A, S_GuardSwitch2 := S_B, S_AutoReset := TRUE, DiscrepancyTime := T#100ms);
END_PROGRAM""", None, None),
    ("note 14 and 15: a carriage return within a line of comment, and characters that turn; within (*", "check", 'PROGRAM P VAR_INPUT S_A : SAFEBOOL; END_VAR // a\rS_O := S_A;\n'
        'VAR_OUTPUT S_O : SAFEBOOL; END_VAR // b\r\n'
        '(* c\r *) S_O := S_A; (*) \u202e *)\n'
        '// \u2066\u2067\n'
        'END_PROGRAM', None, None),
    ("note within a function block the names have a point; a step that is a call is named as such", "check", """FUNCTION_BLOCK Side VAR_INPUT S_A, S_B, S_On : SAFEBOOL; END_VAR VAR_OUTPUT S_O : SAFEBOOL; END_VAR
VAR Hands : SF_TwoHandControlTypeII; END_VAR
Hands(S_Button1 := S_A, S_Button2 := S_B AND S_On);
S_O := Hands.S_TwoHandOut;
END_FUNCTION_BLOCK
PROGRAM P VAR_INPUT S_A, S_B : SAFEBOOL; END_VAR VAR_OUTPUT S_O : SAFEBOOL; END_VAR
VAR S_L : SAFEBOOL; Left : Side; Stop : SF_EmergencyStop; END_VAR
Stop(Activate := TRUE, S_EStopIn := S_L);
Left(S_A := S_A, S_B := S_B, S_On := Stop.S_EStopOut);
S_L := S_A;
S_O := Left.S_O;
END_PROGRAM""", None, None),
]
# The words of calls without files, or of files that are not looked at.
WORDS = [[], ["--help"], ["-h"], ["help"], ["--version"], ["-V"], ["RUN"], ["RUN", "motor.st", "t.trace"], ["chek", "motor.st"], ["chert"], ["check"],
         ["run", "motor.st"], ["fault", "motor.st", "t.trace"], ["verify", "motor.st"], ["load"], ["load", "0"], ["load", "01"], ["load", "x"],
         ["load", "1000000"], ["check", "motor.st", "more"], ["heal", "A", "T", "F", "G"], ["run", "-v", "A", "T"], ["check", ""],
         ["run", "t.trace", "motor.st"], ["motor.st"], ["other"], ["-v"], ["--hlep"], ["\x1bchek"]]
