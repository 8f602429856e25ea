# a tick each 1000 instructions: two rounds
1000 Slot
2000 Slot
3000 Slot
4000 Slot
5000 Slot
6000 Slot
7000 Slot
8000 Slot
