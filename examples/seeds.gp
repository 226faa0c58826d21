# Plots a table of table: the margins by the number of seeds in houses, and the share of positions that the player to move wins.
#
#     gnuplot -c examples/seeds.gp TABLE.csv > seeds.svg
#
# It needs gnuplot 5.2 or newer.
set terminal svg size 800,700 background "white"
set datafile separator comma
set lmargin 9
set offsets 0.5, 0.5, 0, 0
set xtics 1
set grid
set key above
set multiplot layout 2, 1
set ylabel "margin of best play"
set jitter overlap 0.1 spread 0.25 wrap 12
plot ARG1 using "seeds":"margin" with points pointtype 7 pointsize 0.25 title "a position", \
     ARG1 using "seeds":"margin" smooth unique with lines linewidth 2 title "mean"
unset jitter
set xlabel "seeds in houses"
set ylabel "share, %"
set yrange [0:100]
plot ARG1 using "seeds":(column("margin") > 0 ? 100 : 0) smooth unique with linespoints pointtype 7 title "the player to move wins", \
     ARG1 using "seeds":(column("margin") == 0 ? 100 : 0) smooth unique with linespoints pointtype 6 title "draw"
