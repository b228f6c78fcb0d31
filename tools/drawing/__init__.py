"""Pictures of transcripts, as SVG."""
