# Instructions for single events.
set terminal svg size 900,560 noenhanced font 'sans-serif,13' background 'white'
set datafile separator "\t"
set title 'Instructions for single events'
set style data histograms
set style histogram clustered gap 1
set style fill solid
set boxwidth 0.9
set yrange [0:*]
set grid ytics
set xtics nomirror rotate by 40 right
set ytics nomirror
set key outside top right horizontal
plot 'build/figures/forms.tsv' using ($3/$2):xtic(1) title 'proved' linecolor rgb '#1b6ca8', \
     '' using ($4/$2) title 'second' linecolor rgb '#e0a030'
