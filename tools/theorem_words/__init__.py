"""Which definitions of specs/ and items of src/ the contracts of the top calls rest on."""
