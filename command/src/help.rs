//! What `--help` prints. The manual page and the completions are made from it.

pub const HELP: &str = "\
fuavelino: compares a decoded video with its original, and passes only what is shown to be good

  fuavelino compare ORIGINAL DECODED [options]
      Two Y4M files, or two raw planar files of one format; - is standard input, for one of them.
      --size WxH --depth D --chroma 420|422|444|400
                         both files are raw, of this format; words (depths 9 to 12) have their low byte first
      --metrics LIST     of error,ssim,scales,msssim,hvs (default: all)
      --json, --csv      all digits, for programs; without them a table for people
      --jobs N           on so many threads (default: as many as there are cores); the report is the same
      --output FILE      where the report goes; without it, or with -, to standard output
      --quiet            no table on standard output, and no messages but of what went wrong
      --frames N         both files must have exactly so many frames
      --strict           what is noted of the files is a fault: that they are one, or that rate, interlacing or colour range differ
      --require-threshold
                         wrong use without a threshold
      --pairs LISTFILE   in the place of the two files: each pair of a list, whose lines are two names with a TAB between
                         them; the status is the worst, and --output names a folder for a summary and each pair's report
    Thresholds, each held for every plane of every frame and for every frame's combination; with y=X, u=X, v=X or combined=X
    for X, for that plane alone (once for each plane, and once without):
      --max-error X      squared error per sample, at most X
      --min-psnr X       PSNR in decibels, at least X, to the hundredth (identical planes meet any)
      --min-ssim X       SSIM, at least X
      --min-cs X         SSIM without luminance, at least X
      --min-ssim-db X    SSIM in decibels, at least X
      --min-scale X      SSIM of each of the five scales, at least X
      --min-msssim X     MS-SSIM, at least X
      --min-msssim-db X  MS-SSIM in decibels, at least X
      --max-hvs X        PSNR-HVS score, at most X
      --min-hvs-db X     PSNR-HVS in decibels, at least X
      --run-max-error X, --run-min-psnr X, --run-min-ssim X, --run-min-cs X, --run-min-ssim-db X, --run-min-scale X,
      --run-min-msssim X, --run-min-msssim-db X, --run-max-hvs X, --run-min-hvs-db X
                         the same of the whole run's figures

  fuavelino where ORIGINAL DECODED [options]
      Two files as for compare; of each plane of each frame that differs, the first sample, row by row, and the worst tile of 8x8.
      --size WxH --depth D --chroma 420|422|444|400
                         both files are raw, of this format, as for compare
      --json             for programs; without it a table for people
      --map FOLDER       a grey picture (PGM) of each plane that differs, a pixel for each tile, brighter where it is worse; the
                         folder is made where it is missing, and no file in it is written over
      --output FILE, --frames N, --strict, --quiet
                         as for compare

  fuavelino better ORIGINAL FIRST SECOND [options]
      Three files as for compare; which of two candidates has the smaller squared error, the first on a tie: in each plane, in each
      frame, and in the run, which is the verdict.
      --size WxH --depth D --chroma 420|422|444|400
                         all files are raw, of this format, as for compare
      --json, --csv      for programs; without them a table for people
      --expect first|second
                         which is to be the better one; where the verdict is the other, the status is 1
      --output FILE, --frames N, --strict, --quiet
                         as for compare

  fuavelino kernel HEIGHT
      Prints the taps of the kernel of SSIM for planes of so many rows and no fewer columns, from the library's proved chart.

  fuavelino clip pattern|damaged FILE [--size WxH] [--depth D] [--chroma C] [--frames N]
      Writes a small Y4M clip: a moving pattern, or the same with a damaged patch in one plane of one frame.

  fuavelino --help, fuavelino --version

Status: 0 every asked score was given and every threshold met, or no sample differs, or it is known which is better, and as
expected; 1 a threshold is broken, or a sample differs, or the other is better; 2 wrong use; 3 a refusal, an unreadable, short or
unlike file, no frames, or a report or picture that could not be written.
";
