# the brake is touched while the long work runs
1000 Sample
1330 Brake
2500 Sample
2600 Brake
