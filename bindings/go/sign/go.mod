module sign

go 1.19

require (
	enforce v0.0.0
	github.com/btcsuite/btcd v0.20.1-beta
)

replace enforce => ../
