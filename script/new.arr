# the moment of each interrupt, in instructions: Milli ticks each 1000, Button is pressed twice
1000 Milli
2000 Milli
2050 Button
3000 Milli
4000 Milli
4500 Button
5000 Milli
6000 Milli
