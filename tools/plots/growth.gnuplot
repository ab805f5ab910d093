# How the count grows with the bytes moved.
set terminal svg size 760,440 noenhanced font 'sans-serif,13' background 'white'
set datafile separator "\t"
set title 'Instructions for a read of n bytes'
set xlabel 'bytes'
set ylabel 'instructions'
set logscale x 2
set logscale y 10
set grid
set key outside top right horizontal
plot 'build/figures/growth.tsv' using 1:($3/$2) with linespoints linewidth 2 pointtype 7 linecolor rgb '#1b6ca8' title 'proved', \
     '' using 1:($4/$2) with linespoints linewidth 2 pointtype 7 linecolor rgb '#e0a030' title 'second', \
     '' using 1:($5/$2) with linespoints linewidth 2 pointtype 7 linecolor rgb '#777777' title 'memcpy'
