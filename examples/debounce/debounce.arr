# a tick each 1000 instructions; the button bounces from 1200 to 2500, and is pressed once
1000 Milli
1200 Edge
1600 Edge
2000 Milli
2050 Edge
2500 Edge
3000 Milli
4000 Milli
5000 Milli
6000 Milli
7000 Milli
