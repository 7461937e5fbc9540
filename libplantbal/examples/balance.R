# Closes one day of a small plant and prints its report.
#
#     R CMD SHLIB glue.c $(pkg-config --libs plantbal) && Rscript balance.R
dyn.load("glue.so")
day <- c(
  "unit,CDU",
  "stream,CRUDE,env,CDU,metered,1000000000000",
  "stream,NAPHTHA,CDU,env,metered,10000000000",
  "stream,RESIDUE,CDU,env,metered,250000000000",
  "period,monday,2024-05-06,2024-05-06",
  "reading,crude-06,CRUDE,2024-05-06,9931400000,900000000000000",
  "reading,naphtha-06,NAPHTHA,2024-05-06,3113600000,31360000000000",
  "reading,residue-06,RESIDUE,2024-05-06,6741000000,187690000000000",
  "reading,residue-07,RESIDUE,2024-05-06,6741000000,187690000000000",
  "report,monday"
)
report <- .Call("run", paste0(day, "\n", collapse = ""))
cat(report)
flows <- read.csv(text = grep("^stream,", strsplit(report, "\n")[[1]], value = TRUE), header = FALSE)
stopifnot(nrow(flows) == 3)
