# The widths at which the beam of ../first bends least, by R: Rscript ../recipes/beam.R
table <- read.table("beam.dat", header = TRUE, check.names = FALSE, comment.char = "", quote = "")
best <- head(table[order(table$deflection), ], 3)
print(best[c("%eval_id", "width", "deflection")], row.names = FALSE)
