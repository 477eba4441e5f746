10 REM A number is to be guessed
20 PRINT "I think of a number from 1 to 100."
30 INPUT "What is your name";N$
40 RANDOMIZE
50 N=RND(100):T=0
60 INPUT "Your guess";G
70 T=T+1
80 IF G<N THEN PRINT "It is larger.":GOTO 60
90 IF G>N THEN PRINT "It is smaller.":GOTO 60
100 PRINT "Right, ";N$;", in";T;"guesses."
110 INPUT "Again (YES or NO)";A$
120 IF LEFT$(A$,1)="Y" OR LEFT$(A$,1)="y" THEN 50
