"""The modules that real/judge, real/psbt, real/sign and real/revoked run. Tested, not proved."""
