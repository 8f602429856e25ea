#!/usr/bin/env python3
"""Eighty wrong texts, twenty of each kind, each a turned line of one application: `wrong_texts.py [-v]`.

Of each it asks for the refusal, and that standard error names in its first line the thing and what would be right: the words behind each text.
It calls ./sloth, so the program has to be ready.
"""
import os, subprocess, sys, tempfile

HERE = os.path.dirname(os.path.abspath(__file__))
OIL = """OIL_VERSION = "2.5";
CPU door {
  OS os { STATUS = EXTENDED; };
  RESOURCE Lamp { RESOURCEPROPERTY = STANDARD; };
  EVENT Moved { MASK = AUTO; };
  COUNTER Milli { MAXALLOWEDVALUE = 99; };
  ALARM Each {
    COUNTER = Milli;
    ACTION = ACTIVATETASK { TASK = Blink; };
    AUTOSTART = TRUE { ALARMTIME = 5; CYCLETIME = 5; };
  };
  TASK Door {
    PRIORITY = 3;
    SCHEDULE = FULL;
    ACTIVATION = 1;
    AUTOSTART = TRUE { APPMODE = OSDEFAULTAPPMODE; };
    EVENT = Moved;
    RESOURCE = Lamp;
  };
  TASK Sensor { PRIORITY = 2; SCHEDULE = FULL; ACTIVATION = 1; AUTOSTART = FALSE; RESOURCE = Lamp; };
  TASK Blink { PRIORITY = 1; SCHEDULE = NON; ACTIVATION = 1; AUTOSTART = FALSE; };
};
"""
SRC = """# the door
data lit, 4
task Door
label again
  WaitEvent Moved
  ClearEvent Moved
  GetResource Lamp
  lw t0, lit
  xori t0, t0, 1
  sw t0, lit
  ReleaseResource Lamp
  j again
end
task Sensor
  SetEvent Door, Moved
  TerminateTask
end
task Blink, 1
  sw t0, frame[0]
  call pause
  TerminateTask
end
func pause
  nop
  ret
end
"""
ARR = """# the door moves
600 Sensor
1000 Milli
1200 Sensor
2000 Milli
"""
LOAD = """# how far apart
every Sensor 500
every Milli 1000
work Blink 100
deadline Door 400
"""
# Each: what is turned into what, the line, the code, and words of the first line of standard error.
WRONG = {"oil": [
    ("CPU door {", "CPU door { §", 2, "O1", "begins no token"),
    ("  OS os", "  # OS os", 3, "O1", "`#` begins no token|comment begins with //"),
    ("  OS os", "  /* OS os", 3, "O2", "comment that is not closed"),
    ('"2.5"', '"2.5', 1, "O3", '"2.5'),
    ("PRIORITY = 3;", "PRIORITY = 4294967296;", 13, "O4", "4294967296|4294967295"),
    ("PRIORITY = 3;", "PRIORITY = 3", 14, "O5", "`SCHEDULE`|`;`|`PRIORITY = 3` of line 13"),
    ("  TASK Door {", "  TASK {", 12, "O5", "`{`|the name of the object"),
    ("NON; ACTIVATION = 1; AUTOSTART = FALSE; };\n};", "NON; ACTIVATION = 1; AUTOSTART = FALSE; };\n", 21, "O6", "`}`|an object"),
    ("  EVENT Moved {", "  ISR Wheel { CATEGORY = 2; };\n  EVENT Moved {", 5, "O7", "ISR|write a task"),
    ("  EVENT Moved {", "  MESSAGE Speed;\n  EVENT Moved {", 5, "O7", "MESSAGE|no communication"),
    ("    ACTIVATION = 1;\n", "    ACTIVATION = 1;\n    STACKSIZE = 512;\n", 16, "O8", "STACKSIZE|PRIORITY, SCHEDULE|stacks are computed"),
    ("EVENT Moved { MASK = AUTO; };", "EVENT Moved { MASK = AUTO; }; EVENT Moved { MASK = AUTO; };", 5, "O9", "a second EVENT Moved|line 5|another name"),
    ("    RESOURCE = Lamp;\n", "    RESOURCE = Lamb;\n", 18, "O10", "Lamb|is: Lamp"),
    ("    ACTIVATION = 1;\n", "", 12, "O11", "TASK Door|ACTIVATION = 1"),
    ("  OS os { STATUS = EXTENDED; };\n", "", 2, "O11", "no OS object|STATUS = "),
    ("    ACTIVATION = 1;\n", "    ACTIVATION = 3;\n", 15, "O12", "ACTIVATION = 3|wanted is 1|lost"),
    ("STATUS = EXTENDED;", "STATUS = EXTENDED; STARTUPHOOK = TRUE;", 3, "O12", "STARTUPHOOK = TRUE|wanted is FALSE|no hooks"),
    ("ALARMTIME = 5;", "ALARMTIME = 100;", 10, "O12", "ALARMTIME = 100|MAXALLOWEDVALUE"),
    ("PRIORITY = 1;", "PRIORITY = 2;", 21, "O13", "Sensor|Blink|2"),
    ("MASK = AUTO", "MASK = 0", 5, "O12", "MASK = 0|AUTO or a number from 1"),
], "src": [
    ("  lw t0, lit", "  lw t0, lit,", 8, "A1", "`lw t0, lit,`|commas between"),
    ("  xori t0, t0, 1", "  xori t0, t0, 1 // turn", 9, "A3", "begins with #|number"),
    ("func pause\n", "  nop\nfunc pause\n", 23, "A1", "nop|outside a body"),
    ("  GetResource Lamp\n", "data more, 4\n  GetResource Lamp\n", 7, "A1", "data|inside a body|end"),
    ("  xori t0, t0, 1", "  subi t0, t0, 1", 9, "A2", "subi|addi with the negative"),
    ("  ClearEvent", "  ClearEvents", 6, "A2", "ClearEvents|is ClearEvent meant"),
    ("  xori t0, t0, 1", "  xori t0, 1", 9, "A3", "two registers|number|2 operands"),
    ("  lw t0, lit", "  lw ra, lit", 8, "A3", "ra is no register|x5 to x29"),
    ("  xori t0, t0, 1", "  xori t0, t0, 4096", 9, "A4", "4096|-2048 to 2047"),
    ("data lit, 4", "data lit, 0", 2, "A4", "0|1 to 65535"),
    ("  j again", "  j agian", 12, "A5", "agian|is: again"),
    ("  lw t0, lit", "  lw t0, lid", 8, "A5", "lid|is: lit"),
    ("  GetResource Lamp\n", "  GetResource Light\n", 7, "A5", "Light|is: Lamp"),
    ("  SetEvent Door, Moved", "  SetEvent Door, Move", 15, "A5", "Move|is: Moved"),
    ("task Blink, 1", "task Blink, 33", 18, "A6", "33|32 words"),
    ("task Sensor\n  SetEvent Door, Moved\n  TerminateTask\nend\n", "", 1, "A7", "Sensor|task Sensor"),
    ("  sw t0, frame[0]", "  sw t0, frame[1]", 19, "V2", "past the frame"),
    ("  ReleaseResource Lamp\n", "", 11, "V7", "again lists nothing|held here is Lamp|release|`label again, Lamp`"),
    ("  SetEvent Door, Moved\n  TerminateTask", "  SetEvent Door, Moved", 15, "V5", "past its last item|TerminateTask"),
    ("  SetEvent Door, Moved\n", "  GetResource Lamp\n  SetEvent Door, Moved\n", 17, "V10", "ends while a resource is held"),
], "arr": [
    ("600 Sensor", "600  Sensor", 2, "T1", "600  Sensor|one space"),
    ("600 Sensor", "600\tSensor", 2, "T1", "tab|one space"),
    ("600 Sensor", " 600 Sensor", 2, "T1", "begins with a blank"),
    ("600 Sensor", "600 Sensor ", 2, "T1", "blank stands at the end"),
    ("600 Sensor", "600 Sensor # first", 2, "T1", "comment stands on a line of its own"),
    ("600 Sensor", "600 Sensor // first", 2, "T1", "begins with #|line of its own"),
    ("600 Sensor", "Sensor 600", 2, "T1", "moment comes first|`600 Sensor`"),
    ("600 Sensor", "0x258 Sensor", 2, "T1", "0x258 is no moment|decimal"),
    ("600 Sensor", "+600 Sensor", 2, "T1", "+600 is no moment"),
    ("600 Sensor", "6e2 Sensor", 2, "T1", "6e2 is no moment"),
    ("600 Sensor", "600", 2, "T1", "here stands 1 word|one space"),
    ("600 Sensor", "600 Sensor Milli", 2, "T1", "here stand 3 words"),
    ("600 Sensor", "600 sensor", 2, "T2", "sensor|Sensor"),
    ("600 Sensor", "600 Senser", 2, "T2", "Senser|Sensor"),
    ("1000 Milli", "1000 Each", 3, "T2", "Each|Milli"),
    ("1000 Milli", "1000 Moved", 3, "T2", "Moved|Door"),
    ("1200 Sensor", "900 Sensor", 4, "T3", "900|1000|line 3"),
    ("2000 Milli", "200 Milli", 5, "T3", "200|1200|line 4"),
    ("600 Sensor", "0 Sensor", 2, "T4", "moment 0|1 to 1000000"),
    ("2000 Milli", "1000001 Milli", 5, "T4", "1000001|1 to 1000000"),
], "load": [
    ("every Sensor 500", "each Sensor 500", 2, "L1", "each|every, work and deadline"),
    ("every Sensor 500", "Every Sensor 500", 2, "L1", "Every|every"),
    ("every Sensor 500", "Sensor every 500", 2, "L1", "Sensor begins no line"),
    ("every Sensor 500", "every Sensor", 2, "L1", "2 words|every NAME 1000"),
    ("every Sensor 500", "every  Sensor 500", 2, "L1", "one space"),
    ("every Sensor 500", "every Sensor 500 us", 2, "L1", "4 words"),
    ("every Sensor 500", "every Sensor 500 # fast", 2, "L1", "line of its own"),
    ("every Sensor 500", "every\tSensor\t500", 2, "L1", "tab|every"),
    ("every Sensor 500", " every Sensor 500", 2, "L1", "blank"),
    ("every Sensor 500", "every Sensor 0x10", 2, "L1", "0x10|decimal"),
    ("every Sensor 500", "every Sensor -5", 2, "L1", "-5|decimal"),
    ("every Sensor 500", "period Sensor 500", 2, "L1", "period|every"),
    ("every Milli 1000", "every Mili 1000", 3, "L2", "Mili|Milli"),
    ("work Blink 100", "work Milli 100", 4, "L2", "Milli|Door, Sensor, Blink"),
    ("deadline Door 400", "deadline Moved 400", 5, "L2", "Moved|Door, Sensor, Blink"),
    ("deadline Door 400", "deadline door 400", 5, "L2", "door|Door"),
    ("every Milli 1000", "every Sensor 1000", 3, "L3", "every Sensor|line 2"),
    ("deadline Door 400", "work Blink 400", 5, "L3", "work Blink|line 4"),
    ("work Blink 100", "work Blink 0", 4, "L4", "0|1 to "),
    ("every Milli 1000", "every Milli 99999999999", 3, "L4", "99999999999|1 to "),
]}

def main():
    texts, bad = {"oil": OIL, "src": SRC, "arr": ARR, "load": LOAD}, 0
    with tempfile.TemporaryDirectory() as folder:
        for kind, rows in WRONG.items():
            for old, new, line, codes, words in rows:
                assert old in texts[kind], old
                for ending, text in texts.items():
                    with open(f"{folder}/door.{ending}", "w") as it:
                        it.write(text.replace(old, new, 1) if ending == kind else text)
                command = "response" if kind == "load" else "order"
                run = subprocess.run([f"{HERE}/../sloth", command, f"{folder}/door"], capture_output=True, text=True)
                said = run.stderr.replace(f"{folder}/", "")
                first = said.split("\n")[0]
                is_right = run.returncode == 2 and any(run.stdout == f"refused {kind} {line} {code}\n" for code in codes.split("|"))
                is_told = first.startswith(f"door.{kind}:{line}: error: ") and all(it.lower() in first.lower() for it in words.split("|"))
                bad += not (is_right and is_told)
                if "-v" in sys.argv or not (is_right and is_told):
                    print(f"{'' if is_right and is_told else 'BAD '}{new.strip()!r}\n  {run.stdout.strip()}\n  {said.strip()}\n  wanted: {line} {codes} {words}")
    print(f"{sum(map(len, WRONG.values()))} wrong texts, {bad} answered otherwise")
    return bad > 0

sys.exit(main())
