# Seconds that the gate takes for each crate, and for its edits.
set terminal svg size 760,440 noenhanced font 'sans-serif,13' background 'white'
set datafile separator "\t"
set datafile missing '-'
set title 'Seconds of the gate'
set style data histograms
set style histogram rowstacked
set style fill solid
set boxwidth 0.7
set yrange [0:*]
set grid ytics
set xtics nomirror rotate by 40 right
set ytics nomirror
set key outside top right horizontal
plot 'build/figures/gate.tsv' using 2:xtic(1) title 'the crate' linecolor rgb '#1b6ca8', \
     '' using 3 title 'its must-fail edits' linecolor rgb '#e0a030'
